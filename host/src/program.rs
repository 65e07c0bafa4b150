//! Runs a program on bytes: what it writes and how it ends, or that it doesn't end.

use std::fs::File;
use std::io::{self, Read, Write};
use std::process::{Child, Command, ExitStatus, Stdio};
use std::sync::mpsc::{self, Receiver};
use std::thread;
use std::time::{Duration, Instant};

/// A program that hasn't ended by then is taken for one that never ends.
pub const LIMIT: Duration = Duration::from_secs(10);
/// More than it may write, so that one that writes on and on is found out.
const MOST_OUTPUT: u64 = 1 << 20;

/// A part of the input, and how long the next one keeps it waiting.
pub struct Piece<'a> {
    pub bytes: &'a [u8],
    pub pause: Duration,
}

pub struct Ended {
    pub status: ExitStatus,
    /// what it has written, unless that goes elsewhere, and behind it what it has written as an error
    pub output: Vec<u8>,
    pub took: Duration,
}

/// Feeds the pieces to the program's standard input, one write for each, and then ends the input.
pub fn run(program: &str, pieces: &[Piece]) -> Result<Ended, String> {
    let mut command = Command::new(program);
    command.stdin(Stdio::piped()).stdout(Stdio::piped());
    let mut child = start(command)?;
    let to = child.stdin.take().expect("it is piped");
    feed_and_end(child, to, pieces)
}

/// The same through a pipe of which the command has the other end.
pub fn run_fed(command: Command, to: File, pieces: &[Piece]) -> Result<Ended, String> {
    feed_and_end(start(command)?, to, pieces)
}

/// Runs the command, whose input is not fed.
pub fn run_unfed(command: Command) -> Result<Ended, String> {
    end(start(command)?)
}

/// Starts the command, and lets go of what it has of the program's input and output.
fn start(mut command: Command) -> Result<Child, String> {
    command.stderr(Stdio::piped());
    command.spawn().map_err(|error| format!("{:?}: {error}", command.get_program()))
}

fn feed_and_end(child: Child, to: impl Write + Send, pieces: &[Piece]) -> Result<Ended, String> {
    let (tell, told) = mpsc::channel();
    thread::scope(|scope| {
        scope.spawn(move || feed(to, pieces, &told));
        let ended = end(child);
        // nobody listens any more once all is fed
        let _ = tell.send(());
        ended
    })
}

/// Pauses behind each piece, but not for a program that has ended.
fn feed(mut to: impl Write, pieces: &[Piece], ended: &Receiver<()>) {
    for piece in pieces {
        // a program that has read enough may end before it has read all
        if to.write_all(piece.bytes).is_err() || ended.recv_timeout(piece.pause).is_ok() {
            break;
        }
    }
}

/// What the program writes until it ends.
fn end(mut child: Child) -> Result<Ended, String> {
    let started = Instant::now();
    let stdout: Box<dyn Read + Send> = match child.stdout.take() {
        Some(stdout) => Box::new(stdout),
        None => Box::new(io::empty()),
    };
    let stderr = child.stderr.take().expect("it is piped");
    let (tell, told) = mpsc::channel();
    thread::scope(|scope| {
        scope.spawn(move || {
            let mut output = Vec::new();
            let read = stdout.chain(stderr).take(MOST_OUTPUT).read_to_end(&mut output);
            // nobody listens any more once the program was ended
            let _ = tell.send(read.map(|_| output));
        });
        let output = told.recv_timeout(LIMIT);
        let status = status(&mut child, started + LIMIT)?;
        let output = output.map_err(|_| "its output doesn't end".to_string())?;
        Ok(Ended { status, output: output.map_err(|error| error.to_string())?, took: started.elapsed() })
    })
}

/// How the program ends. If it doesn't by the deadline, it is made to.
fn status(child: &mut Child, deadline: Instant) -> Result<ExitStatus, String> {
    loop {
        let ended = child.try_wait().map_err(|error| error.to_string())?;
        if let Some(status) = ended {
            return Ok(status);
        }
        if Instant::now() >= deadline {
            child.kill().and_then(|()| child.wait()).map_err(|error| error.to_string())?;
            return Err(format!("no answer within {} s", LIMIT.as_secs()));
        }
        // its output has ended, so it is about to end as well
        thread::yield_now();
    }
}
