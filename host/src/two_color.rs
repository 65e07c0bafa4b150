//! Compares our `two_color` with the Rust's on random lists: the same refusal, or the same two sides, each in order of first
//! colouring.

use crate::format::write_list;
use crate::lent::Lent;
use crate::list::{List, MOST_APPOINTMENTS, MOST_PARTIES, MOST_WORDS};
use crate::lists::Lists;
use crate::random::Random;
use crate::reference;
use crate::steps::{self, TwoColorAnswer};

/// What a list comes to: its two sides, or the number of its refusal.
#[derive(Clone, Debug, PartialEq, Eq)]
enum Sides {
    Found { left: Vec<usize>, right: Vec<usize> },
    Refused(u32),
}

#[derive(Default)]
struct Counts {
    lists: usize,
    most_appointments: usize,
    two_sided: usize,
    refused_by_9: usize,
    refused_by_checks: usize,
    one_word_short: usize,
}

/// Compares on COUNT random lists. An error names the first list that differs.
pub fn compare(count: usize, seed: u64) -> Result<(), String> {
    let mut lists = Lists::new(seed, MOST_APPOINTMENTS, MOST_PARTIES);
    let mut random = Random::new(!seed);
    let scratch = Lent::new(MOST_WORDS, &mut random, |word| word as u32);
    let mut caller = Caller { random, scratch, counts: Counts::default() };
    for _ in 0..count {
        let list = lists.any();
        caller.compare(&list).map_err(|error| format!("{}\n{error}", write_list(&list)))?;
    }
    let Counts { lists, most_appointments, two_sided, refused_by_9, refused_by_checks, one_word_short } = caller.counts;
    println!(
        "{lists} lists of up to {most_appointments} appointments, of which\n\
         {two_sided:6} in two sides\n\
         {refused_by_9:6} refused by 9\n\
         {refused_by_checks:6} refused by checks 1 to 6\n\
         {one_word_short} of them again with one word of scratch too few\n\
         no difference"
    );
    Ok(())
}

fn expect(expected: &Sides, answered: &Sides) -> Result<(), String> {
    if expected == answered {
        return Ok(());
    }
    Err(format!("expected {expected:?}\nanswered {answered:?}"))
}

/// Calls with noise in the scratch, and counts what it has compared.
struct Caller {
    random: Random,
    scratch: Lent<u32>,
    counts: Counts,
}

impl Caller {
    fn compare(&mut self, list: &List) -> Result<(), String> {
        self.counts.lists += 1;
        self.counts.most_appointments = self.counts.most_appointments.max(list.count());
        let checked = list.check();
        let expected = match checked {
            Err(refusal) => Sides::Refused(u32::from(refusal.number)),
            Ok(_) => reference::sides(list).map_or(Sides::Refused(9), |(left, right)| Sides::Found { left, right }),
        };
        match expected {
            Sides::Found { .. } => self.counts.two_sided += 1,
            Sides::Refused(9) => self.counts.refused_by_9 += 1,
            Sides::Refused(_) => self.counts.refused_by_checks += 1,
        }
        if checked.is_err() {
            // checks 1 to 6 come before 8, so any scratch will do
            let words = self.random.below(1 << 12);
            return expect(&expected, &self.ask(list, words)?);
        }
        let words = list.scratch_words();
        expect(&expected, &self.ask(list, words)?)?;
        if words > 0 {
            self.counts.one_word_short += 1;
            expect(&Sides::Refused(8), &self.ask(list, words - 1)?)?;
        }
        Ok(())
    }

    /// Our answer with scratch of that many words. It's an error if the call writes behind them, or writes at all and then
    /// refuses by a check.
    fn ask(&mut self, list: &List, words: usize) -> Result<Sides, String> {
        self.scratch.fill(words, &mut self.random);
        let p = u16::try_from(list.parties).expect("the lists have fewer parties");
        let TwoColorAnswer { number, left } = steps::two_color(p, &list.ends, self.scratch.lend(words));
        let untouched = if (1..=8).contains(&number) { 0 } else { words };
        if let Some(at) = self.scratch.written_from(untouched) {
            return Err(format!("answered {number}, and word {at}, which must stay, was written"));
        }
        let left = left as usize;
        if number != 0 {
            return if left == 0 { Ok(Sides::Refused(number)) } else { Err(format!("refused {number} with {left}")) };
        }
        if left > list.parties {
            return Err(format!("{left} parties on the left"));
        }
        let held = self.scratch.held(words);
        let side = |from: usize, count: usize| held[from..from + count].iter().map(|&word| word as usize).collect();
        Ok(Sides::Found { left: side(0, left), right: side(list.parties, list.parties - left) })
    }
}
