//! Runs rustworkx-core's `bipartite_edge_color` on lists of appointments, makes random lists, has the definitions computed on
//! lists with the Rust's fresh answers, compares our exported calls with the Rust's, makes them between unreadable pages and on
//! a measured stack, times the planning call beside the Rust, throws bytes at the program and feeds it late.

mod answer;
mod bench;
mod bimtsure;
mod bimtsure_calendar;
mod bytes;
mod calendar;
mod cancel;
mod definitions;
mod demand3;
mod desk;
mod desk_calls;
mod fence;
mod filed_inputs;
mod format;
mod guard;
mod known;
mod lent;
mod list;
mod lists;
mod main_changes;
mod main_inputs;
mod main_text;
mod many;
mod needs;
mod pieces;
mod plan;
mod plan_counts;
mod program;
mod random;
mod reference;
mod split;
mod stack;
mod steps;
mod stored;
mod two_color;
mod watch;

// The Rust as published, which no formatter may touch.
#[path = "../../docs/src/rustworkx-core/src/bipartite_coloring.rs"]
#[rustfmt::skip]
mod bipartite_coloring;
#[path = "../../docs/src/rustworkx-core/src/dictmap.rs"]
#[rustfmt::skip]
mod dictmap;

/// `two_color`, as the build cuts it out of coloring.rs.
#[allow(unused_imports)]
mod coloring {
    include!(concat!(env!("OUT_DIR"), "/coloring.rs"));
}

/// bipartite_coloring.rs with second-search.diff applied.
mod second_search {
    include!(concat!(env!("OUT_DIR"), "/second_search.rs"));
}

/// bipartite_coloring.rs with split-hook.rs appended, for its private split.
#[allow(dead_code)]
mod split_opened {
    include!(concat!(env!("OUT_DIR"), "/split_opened.rs"));
}

use list::{MOST_APPOINTMENTS, MOST_PARTIES};
use lists::{Lists, LEAST_MOST};
use std::io::{self, BufRead, Write};
use std::process::ExitCode;

const USAGE: &str = "\
bimtsure-host answer [--second | --ours] [--panics]
    read lists, one to a line as `P first-second first-second ..`, and print what the Rust answers to each:
    `planned D s0 s1 ..`, `refused N PLACE` by checks 1 to 6 and by 9, or `panic`
    --second    the Rust with document 01's second search
    --ours      our planning call
    --panics    print the message of each panic, to standard error
bimtsure-host lists COUNT SEED [MOST]
    print COUNT random lists of at most MOST (3 to 4096) appointments (if not given, 4096), which SEED decides
bimtsure-host definitions [COUNT [SEED]]
    have the definitions computed on COUNT random lists (if not given, 240), which SEED (1) decides, and compare with
    fresh answers of the Rust; from the repository's root
bimtsure-host two-color COUNT SEED
    compare our `two_color` with the Rust's on COUNT random lists, which SEED decides: refusals, and sides in order
bimtsure-host split COUNT SEED
    compare our split with the Rust's `rbmg_split_into_two` on COUNT random regular graphs of even degree
bimtsure-host desk COUNT SEED
    compare our waiting, asking for many parties, filed plan and viewer with desk.rs, in COUNT rounds of random and of damaged
    input; from 1000 rounds on, fails if a call never gave one of its numbers, or a kind of question never came
bimtsure-host needs COUNT SEED
    compare how much scratch we say that a list needs with list.rs, on the lists that papers name and on COUNT random and
    damaged ones, and have each planned with that many words and with one less; fails if one of the numbers 0 to 6 never came, or
    an order of blank and unlisted ends
bimtsure-host plan COUNT SEED
    compare our planning call with the Rust on the lists that papers name and on COUNT random ones: answers, slots and scratch
    afterwards, and demand 3; from 100000 lists on, fails if there were too few of some kind of list
bimtsure-host cancel COUNT SEED
    plan the lists that papers name and COUNT random ones, and choices of their appointments in random order, with the same P and
    buffers: each must be accepted with a D that is no larger; from 1000 lists on, fails if a kind of choice never came
bimtsure-host calendar
    compare our days and times of slots, and the way back, with calendar.rs: every slot and the sixteen times of every day that
    16 bits hold, and all bytes of hours and minutes on the days 0 to 300; fails if one of the numbers 0, 23 and 24 never came
bimtsure-host guard COUNT SEED
    make every exported call that is lent slices between unreadable pages, and with NULL for those of no entries, in COUNT
    rounds of random and of damaged input; from 5000 rounds on, fails if a call never gave one of its numbers
bimtsure-host bytes SECONDS SEED
    throw bytes, which SEED decides, at the program and at reading a filed plan for so long: lists, damaged ones and noise; each
    must end with the answer of main_text.rs or desk.rs, or its bytes are printed; from 60 seconds on, each kind of answer must
    come, and a plan in which a party waits; from the repository's root, after `rt run` in crates/bimtsure
bimtsure-host pieces
    feed the program its input late, break it off, and let its writes fail: it must print the whole plan or a refusal; as `bytes`,
    after `rt run` in crates/bimtsure
bimtsure-host bench
    time our planning call beside the Rust on the same lists, the checks of a long list alone, waiting, and asking for many
    parties in one call beside a call for each
bimtsure-host stack
    measure how much stack each exported call and the program need; fails if one needs more than the headers in host/include and
    docs/PROVED.md promise; from the repository's root, after `rt run` in crates/bimtsure
bimtsure-host stored COUNT SEED [MOST]
    print the small lists that papers name and COUNT random ones of at most MOST (3 to 4096) appointments (if not given, 40),
    each with the Rust's answer, as `P first-second .. = planned D s0 s1 ..` or `.. = refused N PLACE`; a remark follows a `#`";

/// The most appointments of a list to be stored, if not given.
const MOST_STORED: usize = 40;

fn main() -> ExitCode {
    let words: Vec<String> = std::env::args().skip(1).collect();
    let words: Vec<&str> = words.iter().map(String::as_str).collect();
    let done = match words.as_slice() {
        ["answer", options @ ..] => answer(options),
        ["lists", count, seed] => print_lists(count, seed, MOST_APPOINTMENTS),
        ["lists", count, seed, most] => most_of(most).and_then(|most| print_lists(count, seed, most)),
        ["definitions"] => definitions::check(240, 1),
        ["definitions", count] => number(count).and_then(|count| definitions::check(count, 1)),
        ["definitions", count, seed] => number(count).and_then(|count| definitions::check(count, number(seed)? as u64)),
        ["two-color", count, seed] => compare(two_color::compare, count, seed),
        ["split", count, seed] => compare(split::compare, count, seed),
        ["desk", count, seed] => compare(desk_calls::compare, count, seed),
        ["needs", count, seed] => compare(needs::compare, count, seed),
        ["plan", count, seed] => compare(plan::compare, count, seed),
        ["cancel", count, seed] => compare(cancel::show, count, seed),
        ["calendar"] => calendar::compare(),
        ["guard", count, seed] => compare(guard::run, count, seed),
        ["bytes", seconds, seed] => compare(bytes::throw, seconds, seed),
        ["pieces"] => pieces::check(),
        ["bench"] => bench::run(1),
        ["stack"] => stack::measure(),
        ["stored", count, seed] => print_stored(count, seed, MOST_STORED),
        ["stored", count, seed, most] => most_of(most).and_then(|most| print_stored(count, seed, most)),
        _ => Err(USAGE.to_string()),
    };
    match done {
        Ok(()) => ExitCode::SUCCESS,
        Err(message) => {
            eprintln!("{message}");
            ExitCode::FAILURE
        }
    }
}

fn number(text: &str) -> Result<usize, String> {
    text.parse().map_err(|_| format!("{text} is no number\n{USAGE}"))
}

/// MOST. (More than 4096 is taken for 4096.)
fn most_of(text: &str) -> Result<usize, String> {
    let most = number(text)?;
    if most < LEAST_MOST {
        return Err(format!("MOST is {most}\n{USAGE}"));
    }
    Ok(most)
}

fn compare(run: fn(usize, u64) -> Result<(), String>, count: &str, seed: &str) -> Result<(), String> {
    run(number(count)?, number(seed)? as u64)
}

fn answer(options: &[&str]) -> Result<(), String> {
    const OPTIONS: [&str; 3] = ["--second", "--ours", "--panics"];
    let [second, ours, panics] = OPTIONS.map(|option| options.contains(&option));
    if options.iter().any(|option| !OPTIONS.contains(option)) || (second && ours) {
        return Err(USAGE.to_string());
    }
    if !panics {
        reference::silence_panics();
    }
    let run = if second { reference::with_second_search } else { reference::published };
    let answer_to = |line: &str| -> Result<String, String> {
        let list = format::read_list(line)?;
        let answer = if ours { Some(plan::answered_by_us(&list)?) } else { answer::by(run, &list) };
        Ok(answer.map_or("panic".to_string(), |answer| answer.text()))
    };
    let mut out = io::BufWriter::new(io::stdout().lock());
    for (at, line) in io::stdin().lock().lines().enumerate() {
        let line = line.map_err(|error| error.to_string())?;
        let text = answer_to(&line).map_err(|error| format!("line {}: {error}", at + 1))?;
        writeln!(out, "{text}").map_err(|error| error.to_string())?;
    }
    out.flush().map_err(|error| error.to_string())
}

fn print_stored(count: &str, seed: &str, most: usize) -> Result<(), String> {
    stored::print(number(count)?, number(seed)? as u64, most)
}

fn print_lists(count: &str, seed: &str, most: usize) -> Result<(), String> {
    let count = number(count)?;
    let mut lists = Lists::new(number(seed)? as u64, most, MOST_PARTIES);
    let mut out = io::BufWriter::new(io::stdout().lock());
    for _ in 0..count {
        writeln!(out, "{}", format::write_list(&lists.any())).map_err(|error| error.to_string())?;
    }
    out.flush().map_err(|error| error.to_string())
}
