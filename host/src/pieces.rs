//! Feeds the program its input late, or lets its reads and writes fail. It must print the whole plan or a refusal, never half a
//! list's plan; of a broken input what main_text.rs says; and that its output can't be written.

use crate::bytes::{program_is_there, PROGRAM};
use crate::main_text;
use crate::program::{self, Ended, Piece};
use std::fs::File;
use std::io::{self, Write};
use std::os::fd::FromRawFd;
use std::os::raw::c_int;
use std::process::{Command, Stdio};
use std::time::Duration;

/// Document 01's list, in two pieces.
const FIRST: &[u8] = b"3\n0,1\n";
const SECOND: &[u8] = b"1,2\n";
/// How late the second piece is, in milliseconds, and how often each is tried.
const LATE: [u64; 4] = [0, 1, 50, 300];
const TIMES: usize = 5;
/// So late that the program must have ended before.
const FAR_TOO_LATE: Duration = Duration::from_secs(30);
/// What it says where it can't write.
const UNWRITTEN: &str = "bimtsure: the output can't be written\n";

pub fn check() -> Result<(), String> {
    program_is_there()?;
    blocking()?;
    not_blocking()?;
    far_too_late()?;
    broken_off_anywhere()?;
    unreadable()?;
    unwritable()
}

/// Reads that wait for the second piece give the whole plan.
fn blocking() -> Result<(), String> {
    let plan = main_text::output(&[FIRST, SECOND].concat()).text;
    for late in LATE {
        let ended = run(false, FIRST, Duration::from_millis(late), SECOND)?;
        expect(&format!("second piece {late} ms late"), &ended, &plan)?;
    }
    println!("second piece late, reads that wait: the whole plan");
    Ok(())
}

/// Reads that fail until the second piece is there give the whole plan, or a refusal if that takes too long.
fn not_blocking() -> Result<(), String> {
    let plan = main_text::output(&[FIRST, SECOND].concat()).text;
    let refusal = main_text::broken_output(FIRST);
    for late in LATE {
        let mut plans = 0;
        for _ in 0..TIMES {
            let ended = run(true, FIRST, Duration::from_millis(late), SECOND)?;
            let is_plan = ended.output == plan.as_bytes();
            expect(
                &format!("second piece {late} ms late, reads that fail"),
                &ended,
                if is_plan { &plan } else { &refusal },
            )?;
            plans += usize::from(is_plan);
        }
        println!("second piece {late} ms late, reads that fail: {plans} plans, {} refusals", TIMES - plans);
    }
    Ok(())
}

/// The program doesn't wait for ever.
fn far_too_late() -> Result<(), String> {
    let ended = run(true, FIRST, FAR_TOO_LATE, SECOND)?;
    expect("second piece far too late", &ended, "refused 10 3\n")?;
    println!("second piece {} s late, reads that fail: refused 10 3 after {:.2?}", FAR_TOO_LATE.as_secs(), ended.took);
    Ok(())
}

/// Wherever the list breaks off, and where a line is malformed or too many bytes came.
fn broken_off_anywhere() -> Result<(), String> {
    let list = [FIRST, SECOND].concat();
    let mut inputs: Vec<&[u8]> = (0..=list.len()).map(|length| &list[..length]).collect();
    let (most, more) = (vec![b'x'; main_text::MOST_BYTES], vec![b'x'; main_text::MOST_BYTES + 1]);
    inputs.extend([b"x\n0,1\n".as_slice(), b"3\n0 1\n1,2", b"3\n0,1\n\n1,2\n", b"1025\n,\n", &most, &more]);
    for input in &inputs {
        let ended = run(true, input, FAR_TOO_LATE, b"")?;
        expect(
            &format!("broken off behind {:?}", String::from_utf8_lossy(input)),
            &ended,
            &main_text::broken_output(input),
        )?;
    }
    println!("{} broken inputs: refusals as main_text.rs has them", inputs.len());
    Ok(())
}

/// Standard input that no read takes anything from.
fn unreadable() -> Result<(), String> {
    let mut directory = Command::new(PROGRAM);
    directory.stdin(File::open(".").map_err(told)?).stdout(Stdio::piped());
    let mut closed = Command::new("sh");
    closed.args(["-c", &format!("exec {PROGRAM} <&-")]).stdout(Stdio::piped());
    for (what, command) in [("a directory", directory), ("closed", closed)] {
        let ended = program::run_unfed(command)?;
        expect(&format!("standard input {what}"), &ended, "refused 10 1\n")?;
        println!("standard input {what}: refused 10 1 after {:.2?}", ended.took);
    }
    Ok(())
}

/// Standard output that takes nothing, a full device or a closed pipe: it is told, and ends well.
fn unwritable() -> Result<(), String> {
    let pieces = [Piece { bytes: FIRST, pause: Duration::ZERO }];
    let fed = |stdout: File| {
        let (from, to) = pipe(false)?;
        let mut command = Command::new(PROGRAM);
        command.stdin(from).stdout(stdout);
        program::run_fed(command, to, &pieces)
    };
    let full = File::options().write(true).open("/dev/full").map_err(told)?;
    expect("full device", &fed(full)?, UNWRITTEN)?;
    let (from, to) = pipe(false)?;
    drop(from);
    expect("closed pipe", &fed(to)?, UNWRITTEN)?;
    println!("full device, closed pipe: told on standard error, exit status 0");
    Ok(())
}

/// Through a pipe whose reads fail, or wait, while nothing is in it. The first piece is there from the start, and the second one
/// late.
fn run(fails: bool, first: &[u8], late: Duration, second: &[u8]) -> Result<Ended, String> {
    let (from, mut to) = pipe(fails)?;
    to.write_all(first).map_err(told)?;
    let mut command = Command::new(PROGRAM);
    command.stdin(from).stdout(Stdio::piped());
    program::run_fed(command, to, &[Piece { bytes: b"", pause: late }, Piece { bytes: second, pause: Duration::ZERO }])
}

fn expect(what: &str, ended: &Ended, expected: &str) -> Result<(), String> {
    if ended.status.success() && ended.output == expected.as_bytes() {
        return Ok(());
    }
    let answered = String::from_utf8_lossy(&ended.output);
    Err(format!("{what}: expected\n{expected}answered ({})\n{answered}", ended.status))
}

fn told(error: io::Error) -> String {
    error.to_string()
}

/// A pipe's two ends, which programs that are started don't get by themselves. Where its reads are to fail, the end that is read
/// doesn't block.
fn pipe(fails: bool) -> Result<(File, File), String> {
    const F_SETFL: c_int = 4;
    const O_NONBLOCK: c_int = 0o4000;
    const O_CLOEXEC: c_int = 0o2000000;
    let mut ends = [-1; 2];
    // Safety: pipe2 writes two numbers, which are then open and nobody else's; fcntl is given one of them.
    unsafe {
        if c::pipe2(ends.as_mut_ptr(), O_CLOEXEC) != 0 || (fails && c::fcntl(ends[0], F_SETFL, O_NONBLOCK) != 0) {
            return Err(told(io::Error::last_os_error()));
        }
        Ok((File::from_raw_fd(ends[0]), File::from_raw_fd(ends[1])))
    }
}

mod c {
    use std::os::raw::c_int;

    extern "C" {
        pub fn pipe2(ends: *mut c_int, flags: c_int) -> c_int;
        pub fn fcntl(file: c_int, command: c_int, ...) -> c_int;
    }
}
