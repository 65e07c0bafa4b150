//! Compares `bimtsure_needs` with list.rs, which has checks 1 to 6, D and W after document 01's text: the same four numbers, on
//! the lists that papers name, on random and on damaged ones, and on some again with blank and unlisted ends in any order. Then
//! that W is what the planning call asks: with W words it never refuses by 8, with one less always.

use crate::bimtsure::{self, Needs};
use crate::desk_calls::damage;
use crate::format::write_list;
use crate::known;
use crate::list::{List, BLANK, MOST_APPOINTMENTS, MOST_PARTIES, MOST_WORDS};
use crate::lists::Lists;
use crate::random::Random;
use std::cmp::Ordering;

/// What has been called.
struct Caller {
    /// how often each number came, 0 to 6
    numbers: [usize; 7],
    /// lists that 4 refuses and that have an unlisted end too: at an earlier position than the blank one, the same, a later one
    both: [usize; 3],
    /// plans with W words, and those of them that were refused by 9
    with_words: [usize; 2],
    /// plans with one word less
    with_one_less: usize,
    /// lists that need the most words of all
    most_words: usize,
    slots: Vec<u16>,
    scratch: Vec<u32>,
}

/// COUNT random lists after those that papers name, some of them again with bad ends. An error names a list that differs, or a
/// number or an order of blank and unlisted ends that never came.
pub fn compare(count: usize, seed: u64) -> Result<(), String> {
    let mut caller = Caller::new();
    for known in known::small().into_iter().chain(known::limits()) {
        caller.compare(&known.list)?;
    }
    let mut lists = Lists::new(seed, MOST_APPOINTMENTS, MOST_PARTIES);
    let mut random = Random::new(!seed);
    for _ in 0..count {
        let mut list = if random.chance(2) { lists.mixed() } else { lists.any() };
        if random.chance(3) {
            for _ in 0..random.between(1, 2) {
                damage(&mut list, &mut random);
            }
        }
        caller.compare(&list)?;
        if random.chance(4) {
            spoil_ends(&mut list, &mut random);
            caller.compare(&list)?;
        }
    }
    caller.print();
    if caller.both.contains(&0) {
        return Err("blank and unlisted ends did not come in every order".to_string());
    }
    match caller.numbers.iter().position(|&times| times == 0) {
        Some(number) => Err(format!("no list was answered by {number}")),
        None => Ok(println!("no difference")),
    }
}

/// Makes some ends blank, P, or any number.
fn spoil_ends(list: &mut List, random: &mut Random) {
    for _ in 0..random.between(1, 6).min(list.ends.len()) {
        let at = random.below(list.ends.len());
        list.ends[at] = match random.below(4) {
            0 | 1 => BLANK,
            2 => list.parties as u16,
            _ => random.below(1 << 16) as u16,
        };
    }
}

/// Checks 1 to 6, then D and W. The figures of a refusal are 0.
fn needs(list: &List) -> Needs {
    match list.check() {
        Ok(d) => Needs { number: 0, place: 0, d: d as u32, words: list.scratch_words() as u32 },
        Err(refusal) => Needs { number: refusal.number.into(), place: refusal.place as u32, d: 0, words: 0 },
    }
}

impl Caller {
    fn new() -> Caller {
        Caller {
            numbers: [0; 7],
            both: [0; 3],
            with_words: [0; 2],
            with_one_less: 0,
            most_words: 0,
            slots: vec![0; MOST_APPOINTMENTS],
            // not 0, since what scratch held before affects nothing
            scratch: vec![7; MOST_WORDS],
        }
    }

    /// One list. An error begins with it.
    fn compare(&mut self, list: &List) -> Result<(), String> {
        self.call(list).map_err(|error| format!("{}\n{error}", write_list(list)))
    }

    fn call(&mut self, list: &List) -> Result<(), String> {
        let p = u16::try_from(list.parties).expect("the lists have fewer parties");
        let (expected, answered) = (needs(list), bimtsure::needs(p, &list.ends));
        if expected != answered {
            return Err(format!("expected {expected:?}\nanswered {answered:?}"));
        }
        self.numbers[answered.number as usize] += 1;
        if let (4, Some(unlisted)) = (answered.number, list.first_unlisted()) {
            let order = match unlisted.cmp(&(answered.place as usize)) {
                Ordering::Less => 0,
                Ordering::Equal => 1,
                Ordering::Greater => 2,
            };
            self.both[order] += 1;
        }
        if answered.number == 0 {
            self.plan(list, p, answered.words as usize)?;
        }
        Ok(())
    }

    /// The planning call with as many slot entries as appointments: with that many words, and with one less.
    fn plan(&mut self, list: &List, p: u16, words: usize) -> Result<(), String> {
        let slots = &mut self.slots[..list.count()];
        let scratch = self.scratch.get_mut(..words).ok_or(format!("{words} words are more than {MOST_WORDS}"))?;
        self.most_words += usize::from(words == MOST_WORDS);
        if words > 0 {
            let refused = bimtsure::plan(p, &list.ends, slots, &mut scratch[..words - 1]);
            if refused.number != 8 {
                return Err(format!("with {} words: {refused:?}, and not 8", words - 1));
            }
            self.with_one_less += 1;
        }
        let planned = bimtsure::plan(p, &list.ends, slots, scratch);
        if planned.number != 0 && planned.number != 9 {
            return Err(format!("with {words} words: {planned:?}"));
        }
        self.with_words[usize::from(planned.number == 9)] += 1;
        Ok(())
    }

    fn print(&self) {
        let told: Vec<String> =
            self.numbers.iter().enumerate().map(|(number, times)| format!("{number} {times} times")).collect();
        println!("bimtsure_needs: {} calls, which say {}", self.numbers.iter().sum::<usize>(), told.join(", "));
        let [earlier, same, later] = self.both;
        println!("4 where an end is unlisted too: {earlier} times at an earlier position, {same} at the same, {later} at a later");
        let [planned, nines] = self.with_words;
        println!("bimtsure_plan with W words: {planned} planned, {nines} refused by 9, none by 8");
        println!("bimtsure_plan with one word less: {} refused by 8, all", self.with_one_less);
        println!("{} lists need {MOST_WORDS} words, none needs more", self.most_words);
    }
}

#[cfg(test)]
mod tests {
    use super::*;

    /// Document 01's limits: P 2 with D 4,096, P 3 with D 2,730; and P 1,024, where D 8 comes to 8,192 too.
    #[test]
    fn w_at_the_limits_of_check_6() {
        let words = |parties, times| needs(&List::new(parties, &vec![(0, 1); times]));
        let needs = |d: u32, words| Needs { number: 0, place: 0, d, words };
        let refused = Needs { number: 6, place: 0, d: 0, words: 0 };
        assert_eq!(words(2, 4096), needs(4096, 256 * 4097));
        assert_eq!(words(3, 2730), needs(2730, 384 * 2731));
        assert_eq!(words(3, 2731), refused);
        assert_eq!(words(1024, 8), needs(8, 128 * (8192 + 1024)));
        assert_eq!(words(1024, 9), refused);
        assert_eq!(words(1024, 0), needs(0, 128 * 1024));
        assert_eq!(words(0, 0), needs(0, 0));
    }

    /// The small list `0-1 2-blank`, and the same with another end in the blank's place.
    #[test]
    fn a_refusal_has_its_place_and_no_figures() {
        let refused = |number, place| Needs { number, place, d: 0, words: 0 };
        assert_eq!(needs(&List::new(2, &[(0, 1), (2, 65_535)])), refused(4, 1));
        assert_eq!(needs(&List::new(2, &[(0, 1), (2, 1)])), refused(5, 1));
    }
}
