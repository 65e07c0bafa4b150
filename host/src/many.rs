//! Compares asking for many parties together with desk.rs, and each answer with what asking for that party alone gives. The lists
//! are those of desk_calls.rs, damaged ones too, and the largest there are; none are asked for, or up to more than 16 bits can
//! count, with an output of every length, all of which is compared. Each question comes once more with something to refuse for two
//! checks that follow each other, or for one and all behind it, so that their order shows.

use crate::bimtsure::{self, Many};
use crate::desk::{self, MOST_ASKED};
use crate::desk_calls::{near, noise, numbers_of, same, slots_for, Case, Counts};
use crate::lent::BEHIND;
use crate::list::{List, BLANK, MOST_APPOINTMENTS, MOST_PARTIES};
use crate::random::Random;
use std::collections::BTreeSet;

const LAST_SLOT: u16 = u16::MAX;
/// The largest load: every appointment is the party's with itself.
const MOST_LOAD: usize = 2 * MOST_APPOINTMENTS;

/// Every two checks that follow each other, and how a refusal by the first is counted where the second would refuse too.
const NEIGHBOURS: [(&str, u32, u32); 8] = [
    ("1 before 2", 1, 2),
    ("2 before 3", 2, 3),
    ("3 before 4", 3, 4),
    ("4 before 5", 4, 5),
    ("5 before 7", 5, 7),
    ("7 before 14", 7, 14),
    ("14 before 15", 14, 15),
    ("15 before 13", 15, 13),
];

/// What the call is given.
#[derive(Debug)]
struct Question {
    list: List,
    slots: Vec<u16>,
    queries: Vec<u16>,
    /// entries of the output
    room: usize,
}

pub fn compare(case: &Case, random: &mut Random, counts: &mut Counts) -> Result<(), String> {
    let mut question = Question::new(case, random);
    question.hold(random, counts)?;
    let first = random.below(NEIGHBOURS.len());
    let last = if random.chance(2) { first } else { NEIGHBOURS.len() - 1 };
    question.spoil(NEIGHBOURS[first].1, random);
    for (_, _, number) in &NEIGHBOURS[first..=last] {
        question.spoil(*number, random);
    }
    question.hold(random, counts)
}

/// Parties that the list names or that are below P, one time in three with one or two numbers not below P: none, some, 64, one more,
/// or so many that 16 bits would cut their number to 64 or less.
pub fn queries(list: &List, random: &mut Random) -> Vec<u16> {
    let count = match random.below(16) {
        0 | 1 => 0,
        2..=4 => MOST_ASKED,
        5 | 6 => MOST_ASKED + 1,
        7 => (1 << 16) + random.below(MOST_ASKED + 1),
        _ => random.size(MOST_ASKED),
    };
    let mut queries: Vec<u16> = (0..count).map(|_| named_or_below(list, random)).collect();
    if count > 0 && random.chance(3) {
        for _ in 0..random.between(1, 2) {
            queries[random.below(count)] = not_below(list, random);
        }
    }
    queries
}

/// A party that the list names, or one below P, if there is one.
fn named_or_below(list: &List, random: &mut Random) -> u16 {
    if list.ends.is_empty() || random.chance(4) {
        return random.below(list.parties.max(1)) as u16;
    }
    list.ends[random.below(list.ends.len())]
}

/// A number not below P.
fn not_below(list: &List, random: &mut Random) -> u16 {
    match random.below(3) {
        0 => list.parties as u16,
        1 => u16::MAX,
        _ => random.between(list.parties, u16::MAX.into()) as u16,
    }
}

/// The most parties and the most appointments: of any two, or all of the last one with itself.
fn largest(random: &mut Random) -> Case {
    let last = MOST_PARTIES - 1;
    let lowest = if random.chance(2) { 0 } else { last };
    let ends = (0..2 * MOST_APPOINTMENTS).map(|_| random.between(lowest, last) as u16).collect();
    let list = List { parties: MOST_PARTIES, ends };
    let slots = slots_for(&list, random);
    Case { list, slots }
}

/// Has the list and its slots pass checks 1 to 5 and 7. (Most of the cases don't, and only accepted questions have answers.)
fn mend(Case { list, slots }: &mut Case) {
    list.parties = list.parties.clamp(1, MOST_PARTIES);
    list.ends.truncate(2 * list.count().min(MOST_APPOINTMENTS));
    for end in &mut list.ends {
        *end %= list.parties as u16;
    }
    slots.resize(slots.len().max(list.count()), 0);
}

impl Question {
    fn new(case: &Case, random: &mut Random) -> Question {
        let mut case = if random.chance(8) { largest(random) } else { case.clone() };
        if random.chance(2) {
            mend(&mut case);
        }
        let Case { list, slots } = case;
        let queries = queries(&list, random);
        let room = near(3 * queries.len(), random);
        let mut question = Question { list, slots, queries, room };
        if random.chance(2) {
            question.mark(random);
        }
        question
    }

    /// Has one of the parties asked for be with itself, or have no slot but the last there is: random numbers hardly ever bring
    /// either.
    fn mark(&mut self, random: &mut Random) {
        let Question { list, slots, queries, .. } = self;
        if list.count() == 0 || queries.is_empty() {
            return;
        }
        let (position, query) = (random.below(list.count()), random.below(queries.len()));
        let party = list.ends[2 * position];
        queries[query] = party;
        if random.chance(2) {
            list.ends[2 * position + 1] = party;
            return;
        }
        for (ends, slot) in list.ends.chunks(2).zip(slots) {
            if ends.contains(&party) {
                *slot = LAST_SLOT;
            }
        }
    }

    /// Has the check of that number find something, if it can be had.
    fn spoil(&mut self, number: u32, random: &mut Random) {
        let Question { list, slots, queries, room } = self;
        match number {
            1 => list.parties = random.between(MOST_PARTIES + 1, u16::MAX.into()),
            2 if list.ends.len() % 2 == 0 => list.ends.push(0),
            3 => {
                // by whole appointments, so that an odd length stays odd
                let missing = (MOST_APPOINTMENTS + 1).saturating_sub(list.count());
                list.ends.extend(vec![0; 2 * missing]);
            }
            4 | 5 | 7 if list.count() == 0 => {}
            // a first end and a second one, so that neither takes the other's place
            4 => {
                let position = random.below(list.count());
                list.ends[2 * position] = BLANK;
            }
            5 => {
                let position = random.below(list.count());
                list.ends[2 * position + 1] = random.between(list.parties, usize::from(BLANK) - 1) as u16;
            }
            7 => slots.truncate(random.below(list.count())),
            14 => queries.resize(MOST_ASKED + random.between(1, 2), 0),
            15 => {
                let at = random.below(queries.len().max(1));
                queries.resize(queries.len().max(1), 0);
                queries[at] = not_below(list, random);
            }
            13 if !queries.is_empty() => *room = random.below(3 * queries.len()),
            _ => {}
        }
    }

    /// Whether the check of that number has something to find, whatever comes before it.
    fn has(&self, number: u32) -> bool {
        let Question { list, slots, queries, room } = self;
        match number {
            1 => list.parties > MOST_PARTIES,
            2 => list.ends.len() % 2 == 1,
            3 => list.count() > MOST_APPOINTMENTS,
            4 => list.first_blank().is_some(),
            5 => list.first_unlisted().is_some(),
            7 => slots.len() < list.count(),
            14 => queries.len() > MOST_ASKED,
            15 => queries.iter().any(|&party| usize::from(party) >= list.parties),
            13 => *room < 3 * queries.len(),
            _ => panic!("{number} is no number of the call"),
        }
    }

    fn hold(&self, random: &mut Random, counts: &mut Counts) -> Result<(), String> {
        let mut output: Vec<u16> = noise(self.room + BEHIND, random);
        let mut wanted = output.clone();
        let expected = self.expected(&mut wanted[..self.room]);
        counts.take(expected.number);
        counts.take_kinds(self.kinds(expected, &wanted));
        counts.take_kinds(NEIGHBOURS.map(|(told, first, second)| (told, expected.number == first && self.has(second))));
        let answered = self.ask(&self.queries, &mut output[..self.room]);
        same(self, (expected, &wanted), (answered, &output))?;
        if answered.number == 0 {
            self.hold_alone(&output)?;
        }
        Ok(())
    }

    /// The answer to each query is what asking for it by itself gives.
    fn hold_alone(&self, output: &[u16]) -> Result<(), String> {
        for (&party, together) in self.queries.iter().zip(output.chunks(3)) {
            // no entry is right before the call
            let mut alone: Vec<u16> = together.iter().map(|entry| !entry).collect();
            let answered = self.ask(&[party], &mut alone);
            same((party, "alone", self), (Many { number: 0, place: 0 }, together), (answered, alone.as_slice()))?;
        }
        Ok(())
    }

    fn ask(&self, queries: &[u16], output: &mut [u16]) -> Many {
        let p = u16::try_from(self.list.parties).expect("the cases have fewer parties");
        bimtsure::ask_many(p, &self.list.ends, &self.slots, queries, output)
    }

    fn expected(&self, output: &mut [u16]) -> Many {
        match desk::ask_many(&self.list, &self.slots, &self.queries, output) {
            Ok(()) => Many { number: 0, place: 0 },
            Err(refusal) => {
                let (number, place) = numbers_of(refusal);
                Many { number, place }
            }
        }
    }

    /// What the numbers don't tell: the limits of each, and accepted questions without which a wrong answer could pass.
    fn kinds(&self, expected: Many, output: &[u16]) -> [(&'static str, bool); 17] {
        let Question { list, slots, queries, room } = self;
        let Many { number, place } = expected;
        let (asked, needed) = (queries.len(), 3 * queries.len());
        let accepted = number == 0;
        let answered: &[u16] = if accepted { queries } else { &[] };
        let answers: Vec<&[u16]> = output.chunks(3).take(answered.len()).collect();
        let any = |such: fn(&[u16]) -> bool| answers.iter().any(|answer| such(answer));
        let different: BTreeSet<u16> = answered.iter().copied().collect();
        let with_itself = |(first, second)| first == second && different.contains(&first);
        [
            ("none asked for with no output", accepted && *room == 0),
            ("64 asked for", accepted && asked == MOST_ASKED),
            ("one asked for twice", different.len() < answered.len()),
            ("answers that differ", answers.windows(2).any(|two| two[0] != two[1])),
            ("one with itself", list.appointments().any(with_itself)),
            ("load 0", any(|answer| answer[0] == 0)),
            ("load 8192", any(|answer| usize::from(answer[0]) == MOST_LOAD)),
            ("two slots", any(|answer| answer[1] < answer[2])),
            ("no slot but 65535", any(|answer| answer[0] > 0 && answer[1] == LAST_SLOT)),
            ("entries past A", !answers.is_empty() && slots.len() > list.count()),
            ("an output that just suffices", !answers.is_empty() && *room == needed),
            ("an output that is longer", !answers.is_empty() && *room > needed),
            ("13 for one entry", number == 13 && *room + 1 == needed),
            ("14 for 65, some not below P", number == 14 && asked == MOST_ASKED + 1 && self.has(15)),
            ("14 for more than 16 bits count", number == 14 && asked > u16::MAX.into()),
            ("15 behind the first", number == 15 && place > 0),
            ("15 for 65535", number == 15 && queries[place as usize] == u16::MAX),
        ]
    }
}

#[cfg(test)]
mod tests {
    use super::*;

    /// P 3, the list 0-1 0-1 2-2, and its slots.
    fn question(slots: &[u16], queries: &[u16], room: usize) -> Question {
        let list = List::new(3, &[(0, 1), (0, 1), (2, 2)]);
        Question { list, slots: slots.to_vec(), queries: queries.to_vec(), room }
    }

    /// The kinds that a question is of.
    fn kinds(question: &Question) -> Vec<&'static str> {
        let mut output = vec![0; question.room];
        let expected = question.expected(&mut output);
        question.kinds(expected, &output).into_iter().filter(|(_, came)| *came).map(|(kind, _)| kind).collect()
    }

    #[test]
    fn accepted_questions_are_told_apart() {
        let of = |slots: &[u16], queries: &[u16], room| kinds(&question(slots, queries, room));
        let just = "an output that just suffices";
        assert_eq!(of(&[4, 4, 5], &[], 0), ["none asked for with no output"]);
        assert_eq!(of(&[4, 4, 5], &[], 1), [""; 0]);
        assert_eq!(of(&[4, 4, 5], &[0], 3), [just]);
        assert_eq!(of(&[4, 4, 5], &[0], 4), ["an output that is longer"]);
        assert_eq!(of(&[4, 4, 5], &[0, 1], 6), [just]);
        assert_eq!(of(&[4, 4, 5], &[0, 0], 6), ["one asked for twice", just]);
        assert_eq!(of(&[4, 4, 5], &[2], 3), ["one with itself", just]);
        assert_eq!(of(&[4, 4, 5], &[2, 1], 6), ["answers that differ", "one with itself", just]);
        assert_eq!(of(&[4, 3, 5], &[0], 3), ["two slots", just]);
        assert_eq!(of(&[LAST_SLOT, LAST_SLOT, 5], &[0], 3), ["no slot but 65535", just]);
        assert_eq!(of(&[LAST_SLOT, 4, 5], &[0], 3), ["two slots", just]);
        assert_eq!(of(&[4, 4, 5, 6], &[0], 3), ["entries past A", just]);
        assert_eq!(of(&[4, 4, 5], &[1; 64], 192), ["64 asked for", "one asked for twice", just]);
        let unnamed = Question { list: List::new(3, &[]), ..question(&[], &[1], 3) };
        assert_eq!(kinds(&unnamed), ["load 0", just]);
        let busy = Question { list: List::new(3, &[(1, 1); 4096]), ..question(&[7; 4096], &[1], 3) };
        assert_eq!(kinds(&busy), ["one with itself", "load 8192", just]);
    }

    #[test]
    fn refused_questions_are_told_apart() {
        let of = |queries: &[u16], room| kinds(&question(&[4, 4, 5], queries, room));
        assert_eq!(of(&[0, 1], 5), ["13 for one entry"]);
        assert_eq!(of(&[0, 1], 4), [""; 0]);
        assert_eq!(of(&[0; 65], 195), [""; 0]);
        assert_eq!(of(&[3; 65], 195), ["14 for 65, some not below P"]);
        assert_eq!(of(&[3; 66], 195), [""; 0]);
        assert_eq!(of(&[0; 65_535], 0), [""; 0]);
        assert_eq!(of(&[0; 65_536], 0), ["14 for more than 16 bits count"]);
        assert_eq!(of(&[3, 0], 6), [""; 0]);
        assert_eq!(of(&[0, 3], 6), ["15 behind the first"]);
        assert_eq!(of(&[65_535, 3], 6), ["15 for 65535"]);
        assert_eq!(of(&[0, 65_535], 0), ["15 behind the first", "15 for 65535"]);
        assert_eq!(kinds(&question(&[4, 4], &[3; 65], 0)), [""; 0]);
    }

    /// What two neighbours find is there, and nothing that an earlier check would find.
    #[test]
    fn the_order_of_checks_is_tried() {
        let mut random = Random::new(1);
        for (told, first, second) in NEIGHBOURS {
            let mut question = question(&[4, 4, 5], &[0, 1], 6);
            assert!(!question.has(first) && !question.has(second), "{told}");
            question.spoil(first, &mut random);
            question.spoil(second, &mut random);
            assert!(question.has(first) && question.has(second), "{told}");
            let number = question.expected(&mut vec![0; question.room]).number;
            assert_eq!(number, first, "{told}");
        }
    }

    #[test]
    fn what_is_to_be_refused_by_15_is_not_below_p() {
        let mut random = Random::new(1);
        for parties in [0, 1, 1024, 65_535] {
            let list = List::new(parties, &[]);
            assert!((0..100).all(|_| usize::from(not_below(&list, &mut random)) >= parties));
        }
    }
}
