//! Measures how much stack the exported calls and the program need. Each call runs on a stack of its own that was painted before;
//! the lowest painted byte that was written over tells how deep it went. What comes out is a little too much: the host's own
//! frames above the call count with it. The program runs with less and less stack, until it no longer answers.

use crate::bimtsure;
use crate::bimtsure_calendar::{self, LAST_DAY, LAST_SLOT};
use crate::bytes::PROGRAM;
use crate::desk::MOST_ASKED;
use crate::known;
use crate::list::{List, MOST_APPOINTMENTS, MOST_CELLS, MOST_PARTIES};
use crate::lists::{even_handed_part, Lists};
use crate::main_text::MOST_BYTES;
use crate::random::Random;
use std::arch::asm;
use std::ffi::c_void;
use std::hint::black_box;
use std::io::Write;
use std::path::Path;
use std::process::{Command, Output, Stdio};

/// The exported calls: the KiB of stack that the headers in host/include promise to be enough for each, and how it is called.
const CALLS: &[(&str, usize, fn(&mut Lent))] = &[
    ("bimtsure_plan", 16, |l| done(bimtsure::plan(l.p, &l.list, &mut l.slots, &mut l.scratch))),
    ("bimtsure_needs", 8, |l| done(bimtsure::needs(l.p, &l.list))),
    ("bimtsure_waiting", 80, |l| done(bimtsure::waiting(l.p, &l.list, &l.slots, l.party))),
    ("bimtsure_ask_many", 8, |l| done(bimtsure::ask_many(l.p, &l.list, &l.slots, &l.parties, &mut l.answers))),
    ("bimtsure_file_plan", 1, |l| done(bimtsure::file_plan(l.p, &l.list, &l.slots, &mut l.filed))),
    ("bimtsure_read_plan", 1, |l| done(bimtsure::read_plan(&l.filed, &mut l.list, &mut l.slots))),
    ("bimtsure_view", 1, |l| done(bimtsure::view(&l.list, &l.slots, l.party, 0))),
    // no list matters to these two: they are asked the same for each
    ("bimtsure_clock", 1, |_| SLOTS.iter().for_each(|&slot| done(bimtsure_calendar::clock(slot)))),
    ("bimtsure_slot", 1, |_| TIMES.iter().for_each(|&(day, h, m)| done(bimtsure_calendar::slot(day, h, m)))),
];

/// The first slot, the last one, and one that is refused.
const SLOTS: [u16; 3] = [0, LAST_SLOT, LAST_SLOT + 1];
/// The first time of a day; the last one, the longest way for a search that finds; a time that no search finds; and both on a day
/// that is refused.
const TIMES: [(u16, u8, u8); 5] =
    [(0, 0x08, 0x00), (LAST_DAY, 0x16, 0x30), (0, 0x12, 0x00), (LAST_DAY + 1, 0x16, 0x30), (u16::MAX, 0x12, 0x00)];

/// The KiB of stack that docs/PROVED.md promises to be enough for the program, as many as it never needs, and the steps in which
/// a system gives them.
const PROGRAM_PROMISED: usize = 192;
const PLENTY: usize = 8 * 1024;
const PAGE: usize = 4;

/// P and D of lists in which every party has load D: powers of two, the odd numbers below them, few parties and many.
const EVEN_HANDED: [(usize, usize); 10] =
    [(2, 4096), (2, 4095), (4, 2047), (32, 255), (64, 127), (128, 64), (128, 63), (512, 15), (1024, 8), (1024, 7)];
/// P and D of such lists for the program, whose P·(D + 1) is at most 128.
const PROGRAM_LISTS: [(usize, usize); 6] = [(2, 63), (4, 31), (8, 15), (16, 7), (32, 3), (64, 1)];
/// Random lists, and what decides them.
const RANDOM_LISTS: usize = 1_000;
const SEED: u64 = 1;

/// What a call is lent.
struct Lent {
    p: u16,
    list: Vec<u16>,
    slots: Vec<u16>,
    scratch: Vec<u32>,
    filed: Vec<u8>,
    parties: Vec<u16>,
    answers: Vec<u16>,
    party: u16,
}

/// The answer is of no interest here, but the call must not be left out for that.
fn done<T>(answer: T) {
    black_box(answer);
}

/// Measures the calls and the program. An error names those that need more than was promised.
pub fn measure() -> Result<(), String> {
    let mut above = measure_calls()?;
    above.extend(measure_program()?);
    if above.is_empty() {
        return Ok(());
    }
    Err(format!("more than promised: {}", above.join(", ")))
}

/// The calls that need more than was promised, on all lists.
fn measure_calls() -> Result<Vec<&'static str>, String> {
    let mut stack = Stack::new()?;
    let mut needs = vec![0; CALLS.len()];
    let lists = lists();
    for list in &lists {
        for missing in 0..=1 {
            let mut lent = Lent::new(list, missing);
            for ((_, _, run), need) in CALLS.iter().zip(&mut needs) {
                *need = stack.need(*run, &mut lent).max(*need);
            }
        }
    }
    println!("the most that a call needed, on {} lists, with buffers that suffice and with shorter ones:", lists.len());
    let told = CALLS.iter().zip(needs).filter_map(|((name, promised, _), need)| tell(name, need, *promised));
    Ok(told.collect())
}

/// The name, if it needs more bytes than the KiB that are promised.
fn tell(name: &'static str, need: usize, promised: usize) -> Option<&'static str> {
    println!("{name}: {need} bytes, of {promised} KiB that are promised");
    (need > promised * 1024).then_some(name)
}

/// The program, if it needs more than was promised.
fn measure_program() -> Result<Option<&'static str>, String> {
    if !Path::new(PROGRAM).exists() {
        return Err(format!("{PROGRAM} is missing here: `rt run` in crates/bimtsure writes it"));
    }
    let inputs = program_inputs();
    let run = |input: &[u8], kib: usize| run_within(kib, input).map_err(|error| format!("{PROGRAM}: {error}"));
    let mut need = 0;
    for input in &inputs {
        let answer = run(input, PLENTY)?;
        if !answer.status.success() {
            return Err(format!("{PROGRAM}: {}", answer.status));
        }
        while need < PLENTY && run(input, need)? != answer {
            need += PAGE;
        }
    }
    println!("the least stack with which the program gave all answers to {} inputs:", inputs.len());
    Ok(tell(PROGRAM, need * 1024, PROGRAM_PROMISED))
}

/// The largest lists that main's scratch admits, a refusal by 9, a line that is malformed, no input, and too much of it.
fn program_inputs() -> Vec<Vec<u8>> {
    let mut random = Random::new(SEED);
    let mut lists = PROGRAM_LISTS.map(|(parties, degree)| even_handed_part(&mut random, parties, degree, 3)).to_vec();
    lists.push(List::new(3, &[(0, 1), (1, 2), (2, 0)]));
    let mut inputs: Vec<Vec<u8>> = lists.iter().map(|list| text_of(list).into_bytes()).collect();
    inputs.extend([b"2\n0;1\n".to_vec(), Vec::new(), vec![b'0'; MOST_BYTES + 1]]);
    inputs
}

fn text_of(list: &List) -> String {
    let lines = list.appointments().map(|(first, second)| format!("{first},{second}\n"));
    format!("{}\n{}", list.parties, lines.collect::<String>())
}

/// Runs the program with so many KiB of stack and nothing in its environment, which would stand there too.
fn run_within(kib: usize, input: &[u8]) -> std::io::Result<Output> {
    let mut command = Command::new("/bin/sh");
    command.args(["-c", "ulimit -c 0 && ulimit -s \"$1\" && exec \"$0\"", PROGRAM, &kib.to_string()]).env_clear();
    let mut child = command.stdin(Stdio::piped()).stdout(Stdio::piped()).stderr(Stdio::piped()).spawn()?;
    // a program without enough stack ends before it has read anything
    let _ = child.stdin.take().expect("it is piped").write_all(input);
    child.wait_with_output()
}

/// The lists that papers name; lists as regular as can be; those in which one party meets all others, which have one side much
/// longer than the other and so the most halvings in a search, with the largest D there is, the one below, and one in which every
/// half of it is odd, so that each is searched; and random ones.
fn lists() -> Vec<List> {
    let mut random = Random::new(SEED);
    let mut lists: Vec<List> = known::small().into_iter().chain(known::limits()).map(|known| known.list).collect();
    lists.extend(EVEN_HANDED.map(|(parties, degree)| even_handed_part(&mut random, parties, degree, 3)));
    for parties in 2..=MOST_PARTIES {
        let most = (MOST_CELLS / parties).min(MOST_APPOINTMENTS);
        let odd_halves = (1 << most.ilog2()) - 1;
        lists.extend([most, most - 1, odd_halves].map(|degree| star(parties, degree)));
    }
    let mut any = Lists::new(SEED, MOST_APPOINTMENTS, MOST_PARTIES);
    lists.extend((0..RANDOM_LISTS).map(|_| any.any()));
    let mut mixed = Lists::new(SEED, MOST_APPOINTMENTS, MOST_PARTIES);
    lists.extend((0..RANDOM_LISTS).map(|_| mixed.mixed()));
    lists
}

/// Party 0 meets the others in turn, so often.
fn star(parties: usize, degree: usize) -> List {
    let appointments: Vec<(usize, usize)> = (0..degree).map(|at| (0, 1 + at % (parties - 1))).collect();
    List::new(parties, &appointments)
}

impl Lent {
    /// Buffers for the list, so many entries shorter than they have to be. The filed plan is the list's with all slots 0. As many
    /// parties as can be are asked for, from the last one down.
    fn new(list: &List, missing: usize) -> Lent {
        let p = list.parties as u16;
        let mut filed = vec![0; 4 + 6 * list.count()];
        let slots = vec![0; list.count()];
        bimtsure::file_plan(p, &list.ends, &slots, &mut filed);
        let shorter = |entries: usize| entries.saturating_sub(missing);
        filed.truncate(shorter(filed.len()));
        let parties = (0..MOST_ASKED).map(|at| list.parties.saturating_sub(1 + at) as u16).collect();
        Lent {
            p,
            list: list.ends.clone(),
            slots: vec![0; shorter(list.count())],
            scratch: vec![0; shorter(list.check().map_or(0, |_| list.scratch_words()))],
            filed,
            parties,
            answers: vec![0; shorter(3 * MOST_ASKED)],
            party: list.parties.saturating_sub(1) as u16,
        }
    }
}

mod c {
    use std::ffi::{c_int, c_void};

    extern "C" {
        pub fn mmap(address: *mut c_void, size: usize, access: c_int, kind: c_int, file: c_int, at: i64)
            -> *mut c_void;
        pub fn mprotect(address: *mut c_void, size: usize, access: c_int) -> c_int;
    }
}

/// Linux's numbers for memory that nothing may touch, that may be read and written, and that no file stands behind.
const NO_ACCESS: i32 = 0;
const READ_AND_WRITE: i32 = 3;
const PRIVATE_ANONYMOUS: i32 = 0x22;

/// Bytes of the stack, and of the page below it, which nothing may touch.
const SIZE: usize = 256 * 1024;
const GUARD: usize = 4096;
/// Each call runs once over each paint, so that bytes which it writes can't all pass for paint.
const PAINTS: [u8; 2] = [0xA5, 0x5A];

/// A stack to call on. It lives until the program ends.
struct Stack {
    bytes: &'static mut [u8],
}

/// What is called there, and with what.
struct Job<'a> {
    run: fn(&mut Lent),
    lent: &'a mut Lent,
}

impl Stack {
    fn new() -> Result<Stack, String> {
        // SAFETY: new memory at an address of the system's choice, of which all but the guard is made usable.
        unsafe {
            let whole = c::mmap(std::ptr::null_mut(), GUARD + SIZE, NO_ACCESS, PRIVATE_ANONYMOUS, -1, 0);
            if whole as isize == -1 || c::mprotect(whole.byte_add(GUARD), SIZE, READ_AND_WRITE) != 0 {
                return Err("no memory for a stack".to_string());
            }
            Ok(Stack { bytes: std::slice::from_raw_parts_mut(whole.byte_add(GUARD).cast(), SIZE) })
        }
    }

    /// How many bytes of the stack the call needs.
    fn need(&mut self, run: fn(&mut Lent), lent: &mut Lent) -> usize {
        PAINTS.map(|paint| self.written(paint, run, lent)).into_iter().fold(0, usize::max)
    }

    fn written(&mut self, paint: u8, run: fn(&mut Lent), lent: &mut Lent) -> usize {
        self.bytes.fill(paint);
        let mut job = Job { run, lent };
        let range = self.bytes.as_mut_ptr_range();
        // SAFETY: the stack is large enough, or the guard below it ends the program.
        unsafe { call_on(range.end, enter, (&raw mut job).cast()) };
        black_box(&mut *self.bytes).iter().position(|&byte| byte != paint).map_or(0, |lowest| SIZE - lowest)
    }
}

extern "C" fn enter(job: *mut c_void) {
    // SAFETY: `written` passes its own job, and waits.
    let job = unsafe { &mut *job.cast::<Job>() };
    (job.run)(job.lent);
}

/// Calls a function on the stack that ends at an address, which is a multiple of 16.
///
/// # Safety
///
/// The stack must be large enough for the call, which must come back.
#[inline(never)]
unsafe fn call_on(end: *mut u8, function: extern "C" fn(*mut c_void), argument: *mut c_void) {
    asm!(
        "mov r12, rsp",
        "mov rsp, {end}",
        "call {function}",
        "mov rsp, r12",
        end = in(reg) end,
        function = in(reg) function,
        in("rdi") argument,
        out("r12") _,
        clobber_abi("C"),
    );
}

#[cfg(test)]
mod tests {
    use super::*;

    fn lent() -> Lent {
        Lent::new(&List::new(3, &[(0, 1), (1, 2)]), 0)
    }

    #[test]
    fn an_array_on_the_stack_is_counted() {
        let mut stack = Stack::new().unwrap();
        let nothing = stack.need(|_| (), &mut lent());
        let array = stack.need(|lent| done(black_box([lent.party as u8; 10_000])), &mut lent());
        assert!(nothing < 1_000, "{nothing}");
        // as `black_box` takes and gives it there may be three of them
        assert!((10_000..31_000).contains(&array), "{array}");
    }

    #[test]
    fn what_is_above_its_promise_is_told() {
        assert_eq!(tell("a call", 1_024, 1), None);
        assert_eq!(tell("a call", 1_025, 1), Some("a call"));
    }
}
