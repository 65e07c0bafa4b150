//! Compares our planning call with the Rust: the same answer and the same slots, and the lent memory to the last entry as
//! document 01 says, on lists that papers name and on random ones, with buffers of the exact length, too short and longer. Every
//! answer is also held to demand 3.

use crate::answer::{self, Answer};
use crate::bimtsure::{self, Plan};
use crate::demand3;
use crate::format::write_list;
use crate::known::{self, Known, Told};
use crate::lent::{self, Lent};
use crate::list::{List, Refusal, MOST_APPOINTMENTS, MOST_PARTIES};
use crate::lists::Lists;
use crate::plan_counts::Counts;
use crate::random::Random;
use crate::reference;
use std::sync::atomic::{AtomicUsize, Ordering};
use std::thread;
use std::time::Instant;

/// Random lists are made in parts with a seed each, so that the lists are the same on any number of cores.
const PART: usize = 1000;
/// The most entries or words by which a buffer is longer than needed.
const MOST_MORE: usize = 1000;

/// COUNT random lists after the known ones. An error names a list that differs, or a kind of list of which there are too few.
pub fn compare(count: usize, seed: u64) -> Result<(), String> {
    reference::silence_panics();
    let begun = Instant::now();
    let mut counts = compare_known(seed)?;
    let cores = thread::available_parallelism().map_or(1, usize::from);
    let next_part = AtomicUsize::new(0);
    let results: Vec<Result<Counts, String>> = thread::scope(|scope| {
        let workers: Vec<_> = (0..cores).map(|_| scope.spawn(|| compare_parts(&next_part, count, seed))).collect();
        workers.into_iter().map(|worker| worker.join().expect("a worker ends by itself")).collect()
    });
    for result in results {
        counts.add(&result?);
    }
    counts.print();
    println!("no difference ({} s on {cores} cores)", begun.elapsed().as_secs());
    counts.check_quotas(count)
}

/// The lists that papers name, each with buffers of every length.
fn compare_known(seed: u64) -> Result<Counts, String> {
    let mut caller = Caller::new(seed);
    for Known { list, told, paper } in known::small().into_iter().chain(known::limits()) {
        let (answer, _) = answer::by_the_rust(&list);
        let as_told = match &told {
            Told::Answer(told) => *told == answer,
            Told::Passes => list.check().is_ok(),
        };
        if !as_told {
            return Err(format!("{}\n{paper}: the Rust and list.rs answer {}", write_list(&list), answer.text()));
        }
        caller.compare(&list, true)?;
    }
    Ok(caller.counts)
}

/// Takes one part after the other until none is left, or a difference is found; then none is left for the others either.
fn compare_parts(next_part: &AtomicUsize, count: usize, seed: u64) -> Result<Counts, String> {
    let mut caller = Caller::new(!seed);
    loop {
        let part = next_part.fetch_add(1, Ordering::Relaxed);
        let first = part.saturating_mul(PART);
        if first >= count {
            return Ok(caller.counts);
        }
        let part_seed = (seed << 32) + part as u64;
        caller.random = Random::new(!part_seed);
        let mut lists = Lists::new(part_seed, MOST_APPOINTMENTS, MOST_PARTIES);
        for _ in first..count.min(first + PART) {
            let list = lists.mixed();
            let every_length = caller.random.chance(4);
            if let Err(error) = caller.compare(&list, every_length) {
                next_part.store(count, Ordering::Relaxed);
                return Err(error);
            }
        }
    }
}

/// Our answer to a list, with buffers of the exact length, in the words of `answer`.
pub fn answered_by_us(list: &List) -> Result<Answer, String> {
    let p = u16::try_from(list.parties).map_err(|_| format!("P is {}", list.parties))?;
    let words = if list.check().is_ok() { list.scratch_words() } else { 0 };
    let mut slots = vec![0; list.count()];
    let Plan { number, place, d } = bimtsure::plan(p, &list.ends, &mut slots, &mut vec![0; words]);
    Ok(match number {
        0 => Answer::Planned { largest_load: d as usize, slots },
        _ => Answer::Refused(Refusal { number: number as u8, place: place as usize }),
    })
}

/// Calls with noise in the lent memory, and counts what it has called.
struct Caller {
    random: Random,
    slots: Lent<u16>,
    scratch: Lent<u32>,
    counts: Counts,
}

impl Caller {
    fn new(seed: u64) -> Caller {
        let mut random = Random::new(seed);
        let (slots, scratch) = lent::for_planning(MOST_MORE, &mut random);
        Caller { random, slots, scratch, counts: Counts::default() }
    }

    /// One list with buffers of the exact length, and of other lengths too if asked. An error begins with the list.
    fn compare(&mut self, list: &List, every_length: bool) -> Result<(), String> {
        let (answer, panicked) = answer::by_the_rust(list);
        self.counts.take(list, &answer, panicked);
        self.call_with_lengths(list, &answer, every_length).map_err(|error| format!("{}\n{error}", write_list(list)))
    }

    fn call_with_lengths(&mut self, list: &List, answer: &Answer, every_length: bool) -> Result<(), String> {
        let entries = list.count();
        if list.check().is_err() {
            // checks 1 to 6 come before 7 and 8, so any lengths will do
            let (entries, words) = (self.random.below(entries + 2), self.random.below(1 << 12));
            return self.call(list, answer, entries, words);
        }
        let words = list.scratch_words();
        self.call(list, answer, entries, words)?;
        if !every_length {
            return Ok(());
        }
        let (fewer_entries, fewer_words) = (self.random.below(entries + 1), self.random.below(words + 1));
        let [more_entries, more_words] = [(); 2].map(|()| self.random.between(1, MOST_MORE));
        self.call(list, answer, entries + more_entries, words + more_words)?;
        if entries > 0 {
            self.call(list, answer, entries - 1, words)?;
            self.call(list, answer, entries - 1, words - 1)?;
            self.call(list, answer, fewer_entries, words)?;
        }
        if words > 0 {
            self.call(list, answer, entries, words - 1)?;
            self.call(list, answer, entries, fewer_words)?;
        }
        Ok(())
    }

    /// One call with buffers of these lengths. The answer is that for buffers which suffice.
    fn call(&mut self, list: &List, answer: &Answer, entries: usize, words: usize) -> Result<(), String> {
        let refused = list.check_lent(entries, words).err().map(Answer::Refused);
        let expected = refused.as_ref().unwrap_or(answer);
        self.counts.call(list, expected, entries, words);
        self.slots.fill(entries, &mut self.random);
        self.scratch.fill(words, &mut self.random);
        let p = u16::try_from(list.parties).expect("the lists have fewer parties");
        let answered = bimtsure::plan(p, &list.ends, self.slots.lend(entries), self.scratch.lend(words));
        let lengths = || format!("with {entries} slot entries and {words} words of scratch");
        let wanted = numbers_of(expected);
        if answered != wanted {
            return Err(format!("{}\nexpected {wanted:?}\nanswered {answered:?}", lengths()));
        }
        self.check_memory(list, expected).map_err(|error| format!("{}\n{error}", lengths()))?;
        self.check_demand_3(list, answered).map_err(|error| format!("{}\ndemand 3: {error}", lengths()))
    }

    /// Slots and scratch afterwards.
    fn check_memory(&self, list: &List, expected: &Answer) -> Result<(), String> {
        let planned: &[u16] = if let Answer::Planned { slots, .. } = expected { slots } else { &[] };
        let held = self.slots.held(planned.len());
        if let Some(at) = (0..planned.len()).find(|&at| held[at] != planned[at]) {
            return Err(format!("appointment {at}: expected slot {}, answered {}", planned[at], held[at]));
        }
        if let Some(at) = self.slots.written_from(planned.len()) {
            return Err(format!("slot entry {at} must stay and was written"));
        }
        let cleared = match expected {
            Answer::Refused(Refusal { number: 1..=8, .. }) => 0,
            _ => list.scratch_words(),
        };
        if let Some(at) = self.scratch.not_cleared(cleared) {
            return Err(format!("word {at} of scratch isn't 0"));
        }
        if let Some(at) = self.scratch.written_from(cleared) {
            return Err(format!("word {at} of scratch must stay and was written"));
        }
        Ok(())
    }

    /// Of our answer, without a look at the Rust's: an accepted plan is a shortest one, and 9 comes exactly with an odd closed
    /// round.
    fn check_demand_3(&mut self, list: &List, answered: Plan) -> Result<(), String> {
        match answered.number {
            0 if demand3::has_odd_round(list) => Err("accepted, and a closed round is odd".to_string()),
            0 => {
                self.counts.plans_held_to_demand_3 += 1;
                demand3::check_plan(list, answered.d as usize, self.slots.held(list.count()))
            }
            9 if !demand3::has_odd_round(list) => Err("9, and no closed round is odd".to_string()),
            _ => Ok(()),
        }
    }
}

fn numbers_of(answer: &Answer) -> Plan {
    match *answer {
        Answer::Planned { largest_load, .. } => Plan { number: 0, place: 0, d: largest_load as u32 },
        Answer::Refused(Refusal { number, place }) => Plan { number: number.into(), place: place as u32, d: 0 },
    }
}
