//! Lends every slice of every exported call right before an unreadable page, right behind one, and as NULL where it is empty, on
//! random and damaged input. What a call only reads can't be written. The answer and the lent memory must be those of the same
//! call on ordinary memory.

use crate::bimtsure::c;
use crate::desk_calls::{near, noise, Case};
use crate::fence::{reads, writes, Lent, Place, Slice};
use crate::format::write_list;
use crate::list::{List, MOST_APPOINTMENTS, MOST_PARTIES, MOST_WORDS};
use crate::lists::Lists;
use crate::many;
use crate::random::Random;
use std::collections::BTreeMap;
use std::ptr;
use std::sync::atomic::{AtomicPtr, Ordering};

/// An exported call: its name, every number that it can give, its slices, and the call itself, which is told by its number and
/// in words.
struct Call {
    name: &'static str,
    numbers: &'static [u32],
    slices: fn(&Input) -> Vec<Slice>,
    answer: fn(&Input, &[Lent]) -> (u32, String),
}

/// SAFETY: `lent` holds the call's slices in order, none of which overlap.
macro_rules! told {
    ($call:expr) => {{
        let answer = unsafe { $call };
        (answer.number, format!("{answer:?}"))
    }};
}

const CALLS: [Call; 7] = [
    Call {
        name: "bimtsure_plan",
        numbers: &[0, 1, 2, 3, 4, 5, 6, 7, 8, 9],
        slices: |of| vec![reads(&of.list.ends), writes(&of.slots), writes(&of.scratch)],
        answer: |of, s| {
            told!(c::bimtsure_plan(
                of.p(),
                s[0].at(),
                s[0].entries(),
                s[1].at(),
                s[1].entries(),
                s[2].at(),
                s[2].entries()
            ))
        },
    },
    Call {
        name: "bimtsure_needs",
        numbers: &[0, 1, 2, 3, 4, 5, 6],
        slices: |of| vec![reads(&of.list.ends)],
        answer: |of, s| told!(c::bimtsure_needs(of.p(), s[0].at(), s[0].entries())),
    },
    Call {
        name: "bimtsure_waiting",
        numbers: &[0, 1, 2, 3, 4, 5, 7],
        slices: |of| vec![reads(&of.list.ends), reads(&of.slots)],
        answer: |of, s| {
            told!(c::bimtsure_waiting(of.p(), s[0].at(), s[0].entries(), s[1].at(), s[1].entries(), of.party))
        },
    },
    Call {
        name: "bimtsure_ask_many",
        numbers: &[0, 1, 2, 3, 4, 5, 7, 13, 14, 15],
        slices: |of| vec![reads(&of.list.ends), reads(&of.slots), reads(&of.parties), writes(&of.answers)],
        answer: |of, s| {
            told!(c::bimtsure_ask_many(
                of.p(),
                s[0].at(),
                s[0].entries(),
                s[1].at(),
                s[1].entries(),
                s[2].at(),
                s[2].entries(),
                s[3].at(),
                s[3].entries()
            ))
        },
    },
    Call {
        name: "bimtsure_file_plan",
        numbers: &[0, 1, 2, 3, 7, 13],
        slices: |of| vec![reads(&of.list.ends), reads(&of.slots), writes(&of.output)],
        answer: |of, s| {
            told!(c::bimtsure_file_plan(
                of.p(),
                s[0].at(),
                s[0].entries(),
                s[1].at(),
                s[1].entries(),
                s[2].at(),
                s[2].entries()
            ))
        },
    },
    Call {
        name: "bimtsure_read_plan",
        numbers: &[0, 1, 3, 12, 13],
        slices: |of| vec![reads(&of.filed), writes(&of.read_list), writes(&of.read_slots)],
        answer: |_, s| {
            told!(c::bimtsure_read_plan(
                s[0].at(),
                s[0].entries(),
                s[1].at(),
                s[1].entries(),
                s[2].at(),
                s[2].entries()
            ))
        },
    },
    Call {
        name: "bimtsure_view",
        numbers: &[0, 2, 7],
        slices: |of| vec![reads(&of.list.ends), reads(&of.slots)],
        answer: |of, s| {
            told!(c::bimtsure_view(s[0].at(), s[0].entries(), s[1].at(), s[1].entries(), of.party, of.from))
        },
    },
];

/// What the calls of a round are given.
struct Input {
    list: List,
    slots: Vec<u16>,
    scratch: Vec<u32>,
    output: Vec<u8>,
    filed: Vec<u8>,
    read_list: Vec<u16>,
    read_slots: Vec<u16>,
    parties: Vec<u16>,
    answers: Vec<u16>,
    party: u16,
    from: usize,
}

/// From this many rounds on, each number of each call must have come. (Of runs of 1,000 rounds one in thirty lacked a rare one.)
const ENOUGH: usize = 5000;
/// Lists are mostly short: a long one takes a hundred times as long.
const MOST_OF_SHORT: usize = 200;

/// COUNT rounds with every call. An error tells the first that differs, or a number that never came.
pub fn run(count: usize, seed: u64) -> Result<(), String> {
    tell_faults();
    let mut inputs = Inputs::new(seed);
    let mut counts: Vec<Counts> = CALLS.iter().map(|_| Counts::default()).collect();
    for round in 0..count {
        let input = inputs.next();
        for (call, counts) in CALLS.iter().zip(&mut counts) {
            let now = Now { round, call: call.name, input: &input };
            NOW.store(ptr::from_ref(&now).cast_mut().cast(), Ordering::SeqCst);
            let tried = try_call(call, &input, &mut inputs.random, counts);
            NOW.store(ptr::null_mut(), Ordering::SeqCst);
            tried.map_err(|error| format!("{}\n{error}", now.text()))?;
        }
    }
    for (call, counts) in CALLS.iter().zip(&counts) {
        println!("{}: {}", call.name, counts.text());
        if count >= ENOUGH {
            counts.check(call).map_err(|error| format!("{}: {error}", call.name))?;
        }
    }
    println!("nothing outside of what was lent was touched, and no difference to ordinary memory");
    Ok(())
}

/// The call with all its slices, and with some of them empty.
fn try_call(call: &Call, input: &Input, random: &mut Random, counts: &mut Counts) -> Result<(), String> {
    let slices = (call.slices)(input);
    let ordinary = once(call, input, &slices, Place::Ordinary, counts)?;
    for place in [Place::BeforeFence, Place::BehindFence] {
        same(place, &ordinary, &once(call, input, &slices, place, counts)?)?;
    }
    let empty = random.between(1, (1 << slices.len()) - 1);
    let some_empty: Vec<Slice> = slices
        .iter()
        .enumerate()
        .map(|(at, slice)| if empty & (1 << at) == 0 { slice.clone() } else { slice.emptied() })
        .collect();
    let ordinary = once(call, input, &some_empty, Place::Ordinary, counts)?;
    same(Place::Null, &ordinary, &once(call, input, &some_empty, Place::Null, counts)?)
}

/// The answer in words, and every slice afterwards.
#[derive(PartialEq)]
struct Outcome {
    answer: String,
    memory: Vec<Vec<u8>>,
}

/// The call with its slices lent at such places.
fn once(call: &Call, input: &Input, slices: &[Slice], place: Place, counts: &mut Counts) -> Result<Outcome, String> {
    let lent: Vec<Lent> = slices.iter().map(|slice| Lent::new(slice, place)).collect();
    let (number, answer) = (call.answer)(input, &lent);
    counts.take(number, &lent);
    if !call.numbers.contains(&number) {
        return Err(format!("{place:?}: {answer}, and {number} is none of {:?}", call.numbers));
    }
    if let Some(at) = lent.iter().position(|lent| !lent.rest_stays()) {
        return Err(format!("{place:?}: {answer}, and the memory around slice {at} was written"));
    }
    Ok(Outcome { answer, memory: lent.iter().map(|lent| lent.held().to_vec()).collect() })
}

fn same(place: Place, ordinary: &Outcome, other: &Outcome) -> Result<(), String> {
    if ordinary == other {
        return Ok(());
    }
    let memory = if ordinary.memory == other.memory { "the same memory" } else { "other memory" };
    Err(format!("{place:?}: {}, on ordinary memory {}, and {memory} afterwards", other.answer, ordinary.answer))
}

/// How often each number came, and how often each slice was NULL; of these how often the answer was 0.
#[derive(Default)]
struct Counts {
    numbers: BTreeMap<u32, usize>,
    nulls: Vec<(usize, usize)>,
}

impl Counts {
    fn take(&mut self, number: u32, lent: &[Lent]) {
        *self.numbers.entry(number).or_default() += 1;
        self.nulls.resize(lent.len(), (0, 0));
        for ((times, accepted), lent) in self.nulls.iter_mut().zip(lent) {
            *times += usize::from(lent.is_null());
            *accepted += usize::from(lent.is_null() && number == 0);
        }
    }

    fn text(&self) -> String {
        let told: Vec<String> = self.numbers.iter().map(|(number, times)| format!("{number} {times} times")).collect();
        let nulls: Vec<String> =
            self.nulls.iter().map(|(times, accepted)| format!("{times} times ({accepted} accepted)")).collect();
        let calls: usize = self.numbers.values().sum();
        format!("{calls} calls, which say {}; slices NULL {}", told.join(", "), nulls.join(", "))
    }

    fn check(&self, call: &Call) -> Result<(), String> {
        if let Some(number) = call.numbers.iter().find(|number| !self.numbers.contains_key(number)) {
            return Err(format!("{number} never came"));
        }
        match self.nulls.iter().position(|&(times, _)| times == 0) {
            Some(at) => Err(format!("slice {at} was never NULL")),
            None => Ok(()),
        }
    }
}

/// Input for the calls, which a seed decides.
struct Inputs {
    random: Random,
    short: Lists,
    long: Lists,
    /// noise for scratch, of which each round takes a stretch
    words: Vec<u32>,
}

impl Inputs {
    fn new(seed: u64) -> Inputs {
        let mut random = Random::new(!seed);
        Inputs {
            short: Lists::new(seed, MOST_OF_SHORT, MOST_PARTIES),
            long: Lists::new(seed, MOST_APPOINTMENTS, MOST_PARTIES),
            words: noise(2 * MOST_WORDS, &mut random),
            random,
        }
    }

    fn next(&mut self) -> Input {
        let random = &mut self.random;
        let lists = if random.chance(8) { &mut self.long } else { &mut self.short };
        let case = Case::new(lists.any(), random);
        let needed = if case.list.check().is_ok() { case.list.scratch_words() } else { random.below(1 << 12) };
        let words = near(needed, random);
        let first_word = random.below(MOST_WORDS);
        let filed = case.bytes(random);
        let announced = filed.get(2..4).map_or(0, |two| usize::from(u16::from_le_bytes([two[0], two[1]])));
        let announced = announced.min(MOST_APPOINTMENTS + 1);
        let parties = many::queries(&case.list, random);
        Input {
            scratch: self.words[first_word..][..words].to_vec(),
            output: noise(near(4 + 6 * case.list.count(), random), random),
            filed,
            read_list: noise(near(2 * announced, random), random),
            read_slots: noise(near(announced, random), random),
            answers: noise(near(3 * parties.len(), random), random),
            parties,
            party: case.party(random),
            from: if random.chance(8) { usize::MAX } else { random.below(case.list.count() + 2) },
            slots: case.slots,
            list: case.list,
        }
    }
}

impl Input {
    fn p(&self) -> u16 {
        u16::try_from(self.list.parties).expect("the cases have fewer parties")
    }
}

/// The call that is made now, for the one who reads of a memory fault.
struct Now<'a> {
    round: usize,
    call: &'static str,
    input: &'a Input,
}

impl Now<'_> {
    fn text(&self) -> String {
        let Input { list, slots, scratch, output, read_list, read_slots, parties, answers, party, from, .. } =
            self.input;
        let buffers = [slots.len(), scratch.len(), output.len(), read_list.len(), read_slots.len()];
        let asked = [parties.len(), answers.len()];
        format!(
            "{} in round {} on {}\nslots, scratch, output, list and slots to be read into have {buffers:?} entries, party {party}, from {from}\nparties asked for and the output for them have {asked:?} entries",
            self.call,
            self.round,
            write_list(list)
        )
    }
}

static NOW: AtomicPtr<Now<'static>> = AtomicPtr::new(ptr::null_mut());

extern "C" {
    fn signal(number: i32, handler: extern "C" fn(i32)) -> usize;
    fn _exit(status: i32) -> !;
}

/// The signals of memory faults.
const FAULTS: [i32; 2] = [7, 11];

/// Has a memory fault end the process with an error, and tell the call.
fn tell_faults() {
    for number in FAULTS {
        // SAFETY: the handler ends the process.
        unsafe { signal(number, fault) };
    }
}

/// The fault is the exported call's, which holds no lock, so that a line can still be written.
extern "C" fn fault(_: i32) {
    // SAFETY: what is stored there lives until it is taken away.
    let now = unsafe { NOW.load(Ordering::SeqCst).as_ref() };
    eprintln!("memory was touched that isn't lent: {}", now.map_or("by no call".to_string(), Now::text));
    // SAFETY: nothing is left to be done.
    unsafe { _exit(1) }
}

#[cfg(test)]
mod tests {
    use super::*;
    use std::collections::BTreeSet;

    /// Every call that the header declares is tried here.
    #[test]
    fn every_call_is_here() {
        let header = include_str!("../include/bimtsure.h");
        let words = header.split(|sign: char| !sign.is_ascii_alphanumeric() && sign != '_' && sign != '(');
        let declared: BTreeSet<&str> = words
            .filter_map(|word| Some(word.split_once('(')?.0))
            .filter(|name| name.starts_with("bimtsure_"))
            .collect();
        assert_eq!(declared, CALLS.iter().map(|call| call.name).collect());
    }

    #[test]
    fn a_short_run_finds_nothing() {
        assert_eq!(run(50, 1), Ok(()));
    }
}
