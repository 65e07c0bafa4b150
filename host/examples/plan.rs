//! A first plan, as plan.c: P, then the two ends of each appointment; `-` is an end that isn't known.
//!
//! src/bimtsure.rs is all that it takes. From the repository's root, after host/library:
//!
//!     rustc -L target/staticlib host/examples/plan.rs -o target/plan
//!     target/plan 3  0 1  1 2

#[path = "../src/bimtsure.rs"]
mod bimtsure;

/// What is no number below 65535 stays blank.
fn number(text: &str) -> u16 {
    text.parse().unwrap_or(bimtsure::BLANK)
}

fn main() {
    let numbers: Vec<u16> = std::env::args().skip(1).map(|text| number(&text)).collect();
    let Some((&p, list)) = numbers.split_first() else {
        eprintln!("plan P [FIRST SECOND]..");
        std::process::exit(2);
    };
    let mut slots = vec![0; list.len() / 2];
    // none for a list that is refused, which planning refuses too
    let mut scratch = vec![0; bimtsure::needs(p, list).words as usize];
    let answer = bimtsure::plan(p, list, &mut slots, &mut scratch);
    if answer.number != 0 {
        println!("refused {} {}", answer.number, answer.place);
        std::process::exit(1);
    }
    println!("plan {}", answer.d);
    for (position, (ends, slot)) in list.chunks_exact(2).zip(&slots).enumerate() {
        println!("{position} {} {} {slot}", ends[0], ends[1]);
    }
}
