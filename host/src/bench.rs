//! Times our planning call beside the Rust on the same lists, in turn and in one run: other programs disturb both alike, and the
//! best of many rounds is what is left of them. The Rust's graph is built before its time begins; ours includes the checks and
//! the clearing of scratch. Then the checks of a long list by themselves, and what the Rust doesn't have: waiting, and asking for
//! many parties in one call beside a call for each.

use crate::bimtsure::{self, Many, Needs, Plan, Waiting};
use crate::bipartite_coloring::bipartite_edge_color;
use crate::desk::{self, MOST_ASKED};
use crate::format::write_list;
use crate::list::{List, BLANK, MOST_APPOINTMENTS};
use crate::lists;
use crate::random::Random;
use crate::reference;
use std::collections::BTreeSet;
use std::fmt::Debug;
use std::hint::black_box;
use std::time::{Duration, Instant};

/// P and D.
const SIZES: [(usize, usize); 8] =
    [(16, 8), (64, 16), (128, 64), (128, 63), (1024, 8), (1024, 7), (2, 4096), (32, 255)];
/// With 128 parties, D for 512 to 4,096 appointments: powers of two, and odd ones near them.
const GROWTH: [[usize; 4]; 2] = [[8, 16, 32, 64], [9, 17, 33, 63]];
const GROWTH_PARTIES: usize = 128;

/// P and D of the list whose checks are timed, and of those by whose plans a party waits and many are asked for: A is 4,096.
const CHECKED: (usize, usize) = (1024, 8);
/// How many parties are asked for: one, a desk's morning, and as many as can be.
const ASKED: [usize; 3] = [1, 30, MOST_ASKED];

/// Lists of each row, and for each at least this many rounds and this much time.
const LISTS: usize = 3;
const LEAST_ROUNDS: usize = 15;
const LEAST_TIME: Duration = Duration::from_millis(250);

/// Lists in random order in which every party has load D, or about two thirds of such; their own D can then be less.
#[derive(Clone, Copy)]
enum Kind {
    EvenHanded,
    TwoThirds,
}

/// Microseconds of the best round, on the mean of the lists.
#[derive(Clone, Copy, Default)]
struct Times {
    rust: f64,
    ours: f64,
    /// a plain fill of W words
    fill: f64,
}

pub fn run(seed: u64) -> Result<(), String> {
    let mut random = Random::new(seed);
    println!("Microseconds a call: the best of the rounds, on the mean of {LISTS} lists. `fill` is the time of a plain fill of");
    println!("W words, which our call has to clear, and its share of our time.\n");
    print_header();
    let mut ratios = Vec::new();
    for (parties, degree) in SIZES {
        for kind in [Kind::EvenHanded, Kind::TwoThirds] {
            let lists = kind.lists(&mut random, parties, degree);
            let times = measure(&lists)?;
            ratios.push(times.rust / times.ours);
            println!("{}", row(degree, kind, &lists, times));
        }
    }
    let mean = ratios.iter().sum::<f64>() / ratios.len() as f64;
    let least = ratios.iter().copied().fold(f64::INFINITY, f64::min);
    println!("\nratio: mean {mean:.2}, least {least:.2}\n");

    println!("Growth with the number of appointments; behind each row how often the time of the row before, Rust and ours:\n");
    print_header();
    for degrees in GROWTH {
        let mut before: Option<Times> = None;
        for degree in degrees {
            let lists = Kind::EvenHanded.lists(&mut random, GROWTH_PARTIES, degree);
            let times = measure(&lists)?;
            let growth = before.map_or(String::new(), |before| {
                format!("  {:5.2} {:5.2}", times.rust / before.rust, times.ours / before.ours)
            });
            println!("{}{growth}", row(degree, Kind::EvenHanded, &lists, times));
            before = Some(times);
        }
    }
    println!("\nboth gave the same slots in every round\n");
    time_checks(&mut random)?;
    time_waiting(&mut random)?;
    time_asking(&mut random)
}

/// The checks of a list of 4,096 appointments without the planning: by `bimtsure_needs` for a list that passes, by the planning
/// call for lists that 4 or 5 refuses.
fn time_checks(random: &mut Random) -> Result<(), String> {
    let (parties, degree) = CHECKED;
    let list = lists::even_handed_part(random, parties, degree, 3);
    let p = parties as u16;
    println!("The checks of a list with P {p} and A {}, microseconds a call, the best of the rounds: by", list.count());
    println!("bimtsure_needs if it passes, by bimtsure_plan if it is refused.");

    let expected = Needs { number: 0, place: 0, d: degree as u32, words: list.scratch_words() as u32 };
    let best = best_of(expected, || bimtsure::needs(p, black_box(&list.ends)))?;
    println!("{best:>9.2}  it passes, and D is counted");
    let last = list.count() - 1;
    for (number, place, end) in [(4, 0, BLANK), (4, last, BLANK), (5, 0, p), (5, last, p)] {
        let mut ends = list.ends.clone();
        ends[2 * place + 1] = end;
        let (mut slots, mut scratch) = (vec![0; list.count()], vec![0; list.scratch_words()]);
        let expected = Plan { number, place: place as u32, d: 0 };
        let best = best_of(expected, || bimtsure::plan(p, black_box(&ends), &mut slots, &mut scratch))?;
        println!("{best:>9.2}  refused by {number} at position {place}");
    }
    Ok(())
}

/// Waiting of one party, with many appointments and with few, and with slots near each other and far apart.
fn time_waiting(random: &mut Random) -> Result<(), String> {
    let (parties, degree) = CHECKED;
    let even_handed = lists::even_handed_part(random, parties, degree, 3);
    let planned = planned_slots(&even_handed)?;
    let of_two = |appointments| List::new(2, &vec![(0, 1); appointments]);
    let last = MOST_APPOINTMENTS - 1;
    let up_to = |highest: usize| (0..=last).map(|at| (at * highest / last) as u16).collect::<Vec<u16>>();
    println!("\nWaiting of party 0, microseconds a call, the best of the rounds.");
    for (list, slots, told) in [
        (of_two(MOST_APPOINTMENTS), up_to(last), "slots 0 to 4095"),
        (of_two(MOST_APPOINTMENTS), up_to(65_535), "slots spread from 0 to 65535"),
        (of_two(2), vec![0, 65_535], "slots 0 and 65535"),
        (even_handed, planned, "slots as planned"),
    ] {
        let waiting = desk::waiting_in_the_hall(&list, &slots, 0);
        let expected = Waiting { number: 0, place: 0, waiting: waiting as u32 };
        let p = list.parties as u16;
        let best = best_of(expected, || bimtsure::waiting(p, black_box(&list.ends), black_box(&slots), 0))?;
        let (count, load) = (list.count(), list.load(0));
        println!("{best:>9.2}  P {p}, A {count}, its load {load}, {told}: waits {waiting}");
    }
    Ok(())
}

/// Asking for some parties in one call, and for each of them in a call of its own.
fn time_asking(random: &mut Random) -> Result<(), String> {
    let (parties, degree) = CHECKED;
    let list = lists::even_handed_part(random, parties, degree, 3);
    let slots = planned_slots(&list)?;
    let ask = |queries: &[u16], output: &mut [u16]| {
        bimtsure::ask_many(parties as u16, black_box(&list.ends), black_box(&slots), black_box(queries), output)
    };
    let count = list.count();
    println!("\nAsking for parties of a list with P {parties} and A {count}, microseconds, the best of the rounds:");
    println!("all in one call, a call for each, and the ratio.");
    let accepted = Many { number: 0, place: 0 };
    for asked in ASKED {
        let queries: Vec<u16> = (0..asked).map(|at| (at * parties / asked) as u16).collect();
        let (mut together, mut alone) = (vec![0; 3 * asked], vec![0; 3 * asked]);
        let one_call = best_of(accepted, || ask(&queries, &mut together))?;
        let each = || queries.chunks(1).zip(alone.chunks_mut(3)).all(|(query, answer)| ask(query, answer) == accepted);
        let a_call_each = best_of(true, each)?;
        let mut expected = vec![0; 3 * asked];
        desk::ask_many(&list, &slots, &queries, &mut expected).map_err(|refusal| format!("{refusal:?}"))?;
        if together != expected || alone != expected {
            return Err(format!("of {queries:?}, together {together:?} and alone {alone:?} instead of {expected:?}"));
        }
        println!("{one_call:>9.2} {a_call_each:>9.2} {:>6.2}  {asked} asked for", a_call_each / one_call);
    }
    Ok(())
}

fn planned_slots(list: &List) -> Result<Vec<u16>, String> {
    let (mut slots, mut scratch) = (vec![0; list.count()], vec![0; list.scratch_words()]);
    match bimtsure::plan(list.parties as u16, &list.ends, &mut slots, &mut scratch) {
        Plan { number: 0, .. } => Ok(slots),
        refused => Err(format!("answered {refused:?} instead of a plan")),
    }
}

/// Microseconds of the best round, each of which has to give what is expected.
fn best_of<T: PartialEq + Debug>(expected: T, mut call: impl FnMut() -> T) -> Result<f64, String> {
    let mut best = f64::INFINITY;
    let begun = Instant::now();
    while begun.elapsed() < LEAST_TIME {
        let (time, answered) = timed(&mut call);
        if answered != expected {
            return Err(format!("answered {answered:?} instead of {expected:?}"));
        }
        best = best.min(time);
    }
    Ok(best)
}

fn print_header() {
    println!(
        "{:>5} {:>5} {:>12} {:>6} {:>10} {:>9} {:>9} {:>6} {:>7} {:>6}",
        "P", "D", "lists", "A", "their D", "Rust", "ours", "ratio", "fill", "share"
    );
}

fn row(degree: usize, kind: Kind, lists: &[List], Times { rust, ours, fill }: Times) -> String {
    let (parties, count) = (lists[0].parties, lists[0].count());
    let loads: BTreeSet<usize> = lists.iter().map(List::largest_load).collect();
    let loads: Vec<String> = loads.iter().map(usize::to_string).collect();
    let kind = match kind {
        Kind::EvenHanded => "even-handed",
        Kind::TwoThirds => "two thirds",
    };
    format!(
        "{parties:>5} {degree:>5} {kind:>12} {count:>6} {:>10} {rust:>9.1} {ours:>9.1} {:>6.2} {fill:>7.1} {:>4.0} %",
        loads.join(" "),
        rust / ours,
        100.0 * fill / ours
    )
}

impl Kind {
    fn lists(self, random: &mut Random, parties: usize, degree: usize) -> Vec<List> {
        let thirds = match self {
            Kind::EvenHanded => 3,
            Kind::TwoThirds => 2,
        };
        (0..LISTS).map(|_| lists::even_handed_part(random, parties, degree, thirds)).collect()
    }
}

fn measure(lists: &[List]) -> Result<Times, String> {
    let mut sum = Times::default();
    for list in lists {
        let best = measure_one(list).map_err(|error| format!("{}\n{error}", write_list(list)))?;
        sum = Times { rust: sum.rust + best.rust, ours: sum.ours + best.ours, fill: sum.fill + best.fill };
    }
    let mean = |sum: f64| sum / lists.len() as f64;
    Ok(Times { rust: mean(sum.rust), ours: mean(sum.ours), fill: mean(sum.fill) })
}

fn measure_one(list: &List) -> Result<Times, String> {
    let graph = reference::graph_of(list);
    let p = u16::try_from(list.parties).expect("P is at most 1,024");
    let mut slots = vec![0; list.count()];
    let mut scratch = vec![0; list.scratch_words()];
    let mut best = Times { rust: f64::INFINITY, ours: f64::INFINITY, fill: f64::INFINITY };
    let begun = Instant::now();
    let mut rounds = 0;
    while rounds < LEAST_ROUNDS || begun.elapsed() < LEAST_TIME {
        rounds += 1;
        let (rust, colors) = timed(|| bipartite_edge_color(black_box(&graph)));
        let (ours, answered) = timed(|| bimtsure::plan(p, black_box(&list.ends), &mut slots, &mut scratch));
        let (fill, ()) = timed(|| black_box(&mut scratch).fill(0));
        best = Times { rust: best.rust.min(rust), ours: best.ours.min(ours), fill: best.fill.min(fill) };

        let colors = colors.map_err(|error| error.to_string())?;
        let same = reference::slots_of(list, &colors).into_iter().eq(slots.iter().map(|&slot| usize::from(slot)));
        if answered != (Plan { number: 0, place: 0, d: list.largest_load() as u32 }) || !same {
            return Err(format!("answered {answered:?}, or other slots than the Rust"));
        }
    }
    Ok(best)
}

/// Microseconds.
fn timed<T>(call: impl FnOnce() -> T) -> (f64, T) {
    let begun = Instant::now();
    let result = black_box(call());
    (begun.elapsed().as_secs_f64() * 1e6, result)
}
