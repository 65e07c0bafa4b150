//! Throws bytes at the program and at reading a filed plan for a while. Each must end with an answer, and that of the second
//! versions: main_text.rs for the program, and desk.rs for reading. What is read is also written again. First come inputs of
//! exactly as many bytes as main takes, and of one more: no contract says how many bytes main reads.

use crate::bimtsure::{self, Filed};
use crate::desk_calls::{self, noise, Reading};
use crate::filed_inputs::FiledInputs;
use crate::format::write_bytes;
use crate::main_inputs::{self, Inputs};
use crate::main_text::{self, MOST_BYTES};
use crate::program::{self, Piece};
use crate::random::Random;
use crate::reference;
use crate::watch::Watch;
use std::collections::BTreeMap;
use std::path::Path;
use std::time::{Duration, Instant};

/// `rt run` in the crate's folder writes it.
pub const PROGRAM: &str = "crates/bimtsure/out/bimtsure";
/// Filed plans for each run of the program, which takes far longer.
const READINGS: usize = 8;
/// The most pieces in which an input is fed.
const MOST_PIECES: usize = 5;
/// Lengths of which it is told how often they came.
const LENGTHS: [usize; 5] = [0, 1, MOST_BYTES - 1, MOST_BYTES, MOST_BYTES + 1];
/// From this many seconds on, each kind of answer must have come.
const ENOUGH: usize = 60;
/// The numbers that main can print, and those of reading. In 4,096 bytes there is no list that 2, 3 or 7 refuse.
const OF_MAIN: [u32; 9] = [0, 1, 4, 5, 6, 8, 9, 10, 11];
const OF_READING: [u32; 5] = [0, 1, 3, 12, 13];

/// How often each number came.
type Numbers = BTreeMap<u32, usize>;

#[derive(Default)]
struct Counts {
    main: Numbers,
    /// plans where the Rust panics
    second: usize,
    /// plans in which some party waits
    waits: usize,
    in_pieces: usize,
    /// how often each of the lengths above came, and then how often a longer one
    lengths: [usize; LENGTHS.len() + 1],
    most_bytes: usize,
    reading: Numbers,
}

/// For that many seconds. An error has the first input that is answered otherwise or not at all.
pub fn throw(seconds: usize, seed: u64) -> Result<(), String> {
    program_is_there()?;
    reference::silence_panics();
    let until = Instant::now().checked_add(Duration::from_secs(seconds as u64));
    let until = until.ok_or_else(|| format!("{seconds} seconds are too many"))?;
    let (mut inputs, mut filed_inputs) = (Inputs::new(seed), FiledInputs::new(!seed));
    let mut random = Random::new(seed.rotate_left(32));
    let watch = Watch::start(program::LIMIT);
    let mut counts = Counts::default();
    throw_exact_lengths(&mut counts)?;
    while Instant::now() < until {
        let input = inputs.next();
        run_main(&input, &pieces(&input, &mut random), &mut counts)?;
        for _ in 0..READINGS {
            let bytes = filed_inputs.next();
            watch.begin(&bytes);
            read(&bytes, &mut random, &mut counts).map_err(|error| told("bimtsure_read_plan", &bytes, &error))?;
            watch.end();
        }
    }
    counts.print();
    println!("every run ended with an answer, no difference ({seconds} s)");
    counts.check_kinds(seconds)
}

pub fn program_is_there() -> Result<(), String> {
    match Path::new(PROGRAM).exists() {
        true => Ok(()),
        false => Err(format!("{PROGRAM} is missing here: `rt run` in crates/bimtsure writes it")),
    }
}

fn told(what: &str, input: &[u8], error: &str) -> String {
    format!("{what}, {} bytes (hexadecimal):\n{}\n{error}", input.len(), write_bytes(input))
}

/// Inputs of 4,096 and 4,097 bytes, each as a whole, and with its last byte alone.
fn throw_exact_lengths(counts: &mut Counts) -> Result<(), String> {
    for (input, _) in main_inputs::of_the_most_bytes().into_iter().chain(main_inputs::of_one_byte_more()) {
        let (front, last) = input.split_at(input.len() - 1);
        let pause = Duration::from_millis(1);
        run_main(&input, &[Piece { bytes: &input, pause }], counts)?;
        run_main(&input, &[Piece { bytes: front, pause }, Piece { bytes: last, pause }], counts)?;
    }
    Ok(())
}

/// One run of the program, which is fed the input in pieces.
fn run_main(input: &[u8], pieces: &[Piece], counts: &mut Counts) -> Result<(), String> {
    answer_of_main(input, pieces, counts).map_err(|error| told(PROGRAM, input, &error))
}

fn answer_of_main(input: &[u8], pieces: &[Piece], counts: &mut Counts) -> Result<(), String> {
    let expected = main_text::output(input);
    let ended = program::run(PROGRAM, pieces)?;
    if !ended.status.success() || ended.output != expected.text.as_bytes() {
        let answered = String::from_utf8_lossy(&ended.output);
        return Err(format!("expected\n{}answered ({})\n{answered}", expected.text, ended.status));
    }
    *counts.main.entry(expected.number.into()).or_default() += 1;
    counts.second += usize::from(expected.second);
    counts.waits += usize::from(expected.waits);
    counts.in_pieces += usize::from(pieces.len() > 1);
    counts.take_length(input.len());
    Ok(())
}

/// Mostly the whole. Sometimes several, with pauses, so that the program's reads get fewer bytes than they ask for.
fn pieces<'a>(input: &'a [u8], random: &mut Random) -> Vec<Piece<'a>> {
    let mut left = input;
    let mut pieces = Vec::new();
    if random.chance(8) {
        for _ in 1..random.between(2, MOST_PIECES) {
            let (bytes, behind) = left.split_at(random.below(left.len() + 1));
            let pause = Duration::from_micros(random.below(2_000) as u64);
            pieces.push(Piece { bytes, pause });
            left = behind;
        }
    }
    pieces.push(Piece { bytes: left, pause: Duration::ZERO });
    pieces
}

/// One reading of a filed plan; if it is accepted, writing must give the same bytes.
fn read(bytes: &[u8], random: &mut Random, counts: &mut Counts) -> Result<(), String> {
    let Reading { answer, list, slots } = desk_calls::reading(bytes, random)?;
    *counts.reading.entry(answer.number).or_default() += 1;
    if answer.number != 0 {
        return Ok(());
    }
    let count = answer.appointments as usize;
    let mut output: Vec<u8> = noise(bytes.len(), random);
    let filed = bimtsure::file_plan(answer.parties as u16, &list[..2 * count], &slots[..count], &mut output);
    let wanted = Filed { number: 0, place: 0, length: bytes.len() as u32 };
    if filed != wanted || output != bytes {
        return Err(format!("written again: {filed:?}\n{}", write_bytes(&output)));
    }
    Ok(())
}

impl Counts {
    fn take_length(&mut self, length: usize) {
        self.most_bytes = self.most_bytes.max(length);
        let longer = (length > MOST_BYTES + 1).then_some(LENGTHS.len());
        if let Some(at) = LENGTHS.iter().position(|&told| told == length).or(longer) {
            self.lengths[at] += 1;
        }
    }

    fn print(&self) {
        println!("{PROGRAM}: {} runs", self.main.values().sum::<usize>());
        print_numbers(&self.main, "plan");
        println!(
            "         ({} plans where the Rust panics, {} in which a party waits; {} fed in several pieces;",
            self.second, self.waits, self.in_pieces
        );
        let [.., longer] = self.lengths;
        let told: Vec<String> =
            LENGTHS.iter().zip(self.lengths).map(|(length, times)| format!("{times} of {length} bytes")).collect();
        println!("         {}, {longer} of more, up to {})", told.join(", "), self.most_bytes);
        println!("bimtsure_read_plan: {} calls", self.reading.values().sum::<usize>());
        print_numbers(&self.reading, "accepted, and written again to the same bytes");
    }

    /// A short run needn't have each kind of answer.
    fn check_kinds(&self, seconds: usize) -> Result<(), String> {
        if seconds < ENOUGH {
            return Ok(());
        }
        let missing = |numbers: &Numbers, all: &[u32]| all.iter().copied().find(|number| !numbers.contains_key(number));
        if let Some(number) = missing(&self.main, &OF_MAIN) {
            return Err(format!("no input of {PROGRAM} was answered by {number}"));
        }
        if self.waits == 0 {
            return Err("nobody waits in any plan".to_string());
        }
        if let Some(number) = missing(&self.reading, &OF_READING) {
            return Err(format!("no filed plan was answered by {number}"));
        }
        Ok(())
    }
}

fn print_numbers(numbers: &Numbers, accepted: &str) {
    for (number, times) in numbers {
        match number {
            0 => println!("{times:8} {accepted}"),
            _ => println!("{times:8} refused {number}"),
        }
    }
}
