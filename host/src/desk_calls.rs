//! Compares our exported desk calls with desk.rs, on random lists, on damaged ones, with slots of many kinds and with buffers of
//! every length: the same numbers, and the same lent memory afterwards, to the last entry.

use crate::bimtsure::{self, Filed, Read, View, Waiting};
use crate::desk::{self, Viewer};
use crate::format::{write_bytes, write_list};
use crate::lent::BEHIND;
use crate::list::{List, Refusal, BLANK, MOST_APPOINTMENTS, MOST_PARTIES};
use crate::lists::Lists;
use crate::many;
use crate::random::Random;
use std::collections::{BTreeMap, BTreeSet};
use std::fmt::Debug;

/// The most steps of a viewer that are followed from the start.
const MOST_STEPS: usize = 24;
/// From this many rounds on, each number of each call and each kind of question must have come.
const ENOUGH: usize = 1000;

/// An exported call: its name, every number that it can give, and how it is compared.
struct Call {
    name: &'static str,
    numbers: &'static [u32],
    compare: fn(&Case, &mut Random, &mut Counts) -> Result<(), String>,
}

const CALLS: [Call; 5] = [
    Call { name: "bimtsure_waiting", numbers: &[0, 1, 2, 3, 4, 5, 7], compare: waiting },
    Call { name: "bimtsure_ask_many", numbers: &[0, 1, 2, 3, 4, 5, 7, 13, 14, 15], compare: many::compare },
    Call { name: "bimtsure_file_plan", numbers: &[0, 1, 2, 3, 7, 13], compare: file_plan },
    Call { name: "bimtsure_read_plan", numbers: &[0, 1, 3, 12, 13], compare: read_plan },
    Call { name: "bimtsure_view", numbers: &[0, 2, 7], compare: view },
];

/// How often a call gave each number, and how often each kind of question came that its numbers don't tell apart.
#[derive(Default)]
pub struct Counts {
    numbers: BTreeMap<u32, usize>,
    kinds: BTreeMap<&'static str, usize>,
}

/// A list and its slots.
#[derive(Clone)]
pub struct Case {
    pub list: List,
    pub slots: Vec<u16>,
}

/// COUNT rounds, each with at least one call of each kind. An error tells the first that differs, or what never came.
pub fn compare(count: usize, seed: u64) -> Result<(), String> {
    let mut lists = Lists::new(seed, MOST_APPOINTMENTS, MOST_PARTIES);
    let mut random = Random::new(!seed);
    let mut counts: Vec<Counts> = CALLS.iter().map(|_| Counts::default()).collect();
    for _ in 0..count {
        let case = Case::new(lists.any(), &mut random);
        for (call, counts) in CALLS.iter().zip(&mut counts) {
            (call.compare)(&case, &mut random, counts).map_err(|error| {
                format!("{}\nslots {:?}\n{}: {error}", write_list(&case.list), case.slots, call.name)
            })?;
        }
    }
    for (call, counts) in CALLS.iter().zip(&counts) {
        println!("{}: {}", call.name, counts.text());
        if count >= ENOUGH {
            counts.check(call).map_err(|error| format!("{}: {error}", call.name))?;
        }
    }
    println!("no difference");
    Ok(())
}

impl Counts {
    pub fn take(&mut self, number: u32) {
        *self.numbers.entry(number).or_default() += 1;
    }

    /// Each kind by its name, and whether the question was of it.
    pub fn take_kinds<const N: usize>(&mut self, kinds: [(&'static str, bool); N]) {
        for (kind, came) in kinds {
            *self.kinds.entry(kind).or_default() += usize::from(came);
        }
    }

    fn text(&self) -> String {
        let told: Vec<String> = self.numbers.iter().map(|(number, times)| format!("{number} {times} times")).collect();
        let kinds: String = self.kinds.iter().map(|(kind, times)| format!("; {kind} {times} times")).collect();
        format!("{} calls, which say {}{kinds}", self.numbers.values().sum::<usize>(), told.join(", "))
    }

    fn check(&self, call: &Call) -> Result<(), String> {
        if let Some(number) = call.numbers.iter().find(|number| !self.numbers.contains_key(number)) {
            return Err(format!("{number} never came"));
        }
        match self.kinds.iter().find(|(_, &times)| times == 0) {
            Some((kind, _)) => Err(format!("{kind} never came")),
            None => Ok(()),
        }
    }
}

/// An error says what was asked and what differs.
pub fn same<T: Debug + PartialEq>(asked: impl Debug, expected: T, answered: T) -> Result<(), String> {
    if expected == answered {
        return Ok(());
    }
    Err(format!("asked {asked:?}\nexpected {expected:?}\nanswered {answered:?}"))
}

/// The number and the place of a refusal.
pub fn numbers_of(refusal: Refusal) -> (u32, u32) {
    (u32::from(refusal.number), refusal.place as u32)
}

fn waiting(case: &Case, random: &mut Random, counts: &mut Counts) -> Result<(), String> {
    let party = case.party(random);
    let expected = expected_waiting(case, party);
    counts.take(expected.number);
    counts.take_kinds(kinds_of_waiting(case, party.into(), &expected));
    same(party, expected, bimtsure::waiting(case.p(), &case.list.ends, &case.slots, party))
}

fn expected_waiting(case: &Case, party: u16) -> Waiting {
    match desk::waiting(&case.list, &case.slots, party) {
        Ok(waiting) => Waiting { number: 0, place: 0, waiting: waiting as u32 },
        Err(refusal) => {
            let (number, place) = numbers_of(refusal);
            Waiting { number, place, waiting: 0 }
        }
    }
}

/// What the numbers don't tell: whose 5 it is, that 7 came before the party's, and accepted questions without which a wrong count
/// could pass: one that stops at D, takes a slot as often as it comes, takes those of all parties, or looks past A.
fn kinds_of_waiting(case: &Case, party: usize, expected: &Waiting) -> [(&'static str, bool); 7] {
    let Case { list, slots } = case;
    let accepted = expected.number == 0;
    let own = desk::slots_of(list, slots, party);
    let different: BTreeSet<usize> = own.iter().copied().collect();
    let some = |mut slots: std::collections::btree_set::Range<usize>| slots.next().is_some();
    let free_between =
        |slot: usize| !different.contains(&slot) && some(different.range(..slot)) && some(different.range(slot..));
    let another_between = slots.iter().take(list.count()).any(|&slot| free_between(slot.into()));
    [
        ("5 for the party", expected.number == 5 && list.check_ends().is_ok()),
        ("7 where the party is not below P", expected.number == 7 && party >= list.parties),
        ("accepted above 0", accepted && expected.waiting > 0),
        ("accepted above D", accepted && expected.waiting as usize > list.largest_load()),
        ("accepted with a slot twice", accepted && different.len() < own.len()),
        ("accepted with another's slot between", accepted && another_between),
        ("accepted with entries past A", accepted && slots.len() > list.count()),
    ]
}

fn file_plan(case: &Case, random: &mut Random, counts: &mut Counts) -> Result<(), String> {
    let room = near(4 + 6 * case.list.count(), random);
    let mut output: Vec<u8> = noise(room + BEHIND, random);
    let mut wanted = output.clone();
    let expected = match desk::file_plan(&case.list, &case.slots, &mut wanted[..room]) {
        Ok(length) => Filed { number: 0, place: 0, length: length as u32 },
        Err(refusal) => {
            let (number, place) = numbers_of(refusal);
            Filed { number, place, length: 0 }
        }
    };
    counts.take(expected.number);
    let answered = bimtsure::file_plan(case.p(), &case.list.ends, &case.slots, &mut output[..room]);
    same(room, (expected, wanted), (answered, output))
}

fn read_plan(case: &Case, random: &mut Random, counts: &mut Counts) -> Result<(), String> {
    let bytes = case.bytes(random);
    let reading = reading(&bytes, random).map_err(|error| format!("filed {}\n{error}", write_bytes(&bytes)))?;
    counts.take(reading.answer.number);
    Ok(())
}

/// What reading a filed plan answers, and the lent memory afterwards.
#[derive(Debug, PartialEq)]
pub struct Reading {
    pub answer: Read,
    pub list: Vec<u16>,
    pub slots: Vec<u16>,
}

/// Has the bytes read into buffers of about the length that they need, full of noise. An error tells these lengths and the
/// difference, and leaves the bytes to the caller.
pub fn reading(bytes: &[u8], random: &mut Random) -> Result<Reading, String> {
    let announced = bytes.get(2..4).map_or(0, |two| usize::from(u16::from_le_bytes([two[0], two[1]])));
    let announced = announced.min(MOST_APPOINTMENTS + 1);
    let (list_room, slot_room) = (near(2 * announced, random), near(announced, random));
    let mut list: Vec<u16> = noise(list_room + BEHIND, random);
    let mut slots: Vec<u16> = noise(slot_room + BEHIND, random);
    let (mut wanted_list, mut wanted_slots) = (list.clone(), slots.clone());
    let expected = match desk::read_plan(bytes, &mut wanted_list[..list_room], &mut wanted_slots[..slot_room]) {
        Ok(header) => {
            let (parties, appointments) = (header.parties as u32, header.appointments as u32);
            Read { number: 0, place: 0, parties, appointments }
        }
        Err(refusal) => {
            let (number, place) = numbers_of(refusal);
            Read { number, place, parties: 0, appointments: 0 }
        }
    };
    let answer = bimtsure::read_plan(bytes, &mut list[..list_room], &mut slots[..slot_room]);
    let expected = Reading { answer: expected, list: wanted_list, slots: wanted_slots };
    let answered = Reading { answer, list, slots };
    same((list_room, slot_room), &expected, &answered).map(|()| answered)
}

/// From the start on, by where each step says that the next begins, and past the end; then from any position at all.
fn view(case: &Case, random: &mut Random, counts: &mut Counts) -> Result<(), String> {
    let (list, slots) = (case.list.ends.as_slice(), case.slots.as_slice());
    let party = case.party(random);
    let mut step = |from: usize| {
        let expected = match Viewer::open(list, slots) {
            Ok(mut viewer) => {
                viewer.at = from;
                let seen = viewer.step(party);
                let (position, slot) = seen.unwrap_or((0, 0));
                let slot = u32::from(slot);
                View { number: 0, place: 0, found: u32::from(seen.is_some()), position, slot, next: viewer.at }
            }
            Err(refusal) => {
                let (number, place) = numbers_of(refusal);
                View { number, place, found: 0, position: 0, slot: 0, next: 0 }
            }
        };
        counts.take(expected.number);
        let answered = bimtsure::view(list, slots, party, from);
        same((party, from), expected, answered).map(|()| answered)
    };
    let mut from = 0;
    for _ in 0..MOST_STEPS {
        let seen = step(from)?;
        from = seen.next;
        if seen.found == 0 {
            break;
        }
    }
    step(from)?;
    let past = [case.list.count(), case.list.count() + 1, 1 << 32, usize::MAX / 2, usize::MAX];
    let from = if random.chance(4) { past[random.below(past.len())] } else { random.below(case.list.count() + 1) };
    step(from).map(drop)
}

impl Case {
    /// The list as it is, or damaged in one or two ways, with slots for it, or too few or too many.
    pub fn new(list: List, random: &mut Random) -> Case {
        let mut list = list;
        if random.chance(2) {
            for _ in 0..random.between(1, 2) {
                damage(&mut list, random);
            }
        }
        let slots = slots_for(&list, random);
        Case { list, slots }
    }

    fn p(&self) -> u16 {
        u16::try_from(self.list.parties).expect("the cases have fewer parties")
    }

    /// One that the list names, one below P, or any number.
    pub fn party(&self, random: &mut Random) -> u16 {
        match random.below(4) {
            0 => random.below(1 << 16) as u16,
            1 => random.below(self.list.parties + 1) as u16,
            _ if self.list.ends.is_empty() => 0,
            _ => self.list.ends[random.below(self.list.ends.len())],
        }
    }

    /// The list filed, as it is or damaged, or no plan at all.
    pub fn bytes(&self, random: &mut Random) -> Vec<u8> {
        let mut bytes = vec![0; 4 + 6 * self.list.count()];
        let slots: Vec<u16> = noise(self.list.count(), random);
        if desk::file_plan(&self.list, &slots, &mut bytes).is_err() {
            bytes = noise(bytes.len(), random);
            // a header that fits the length, so that later checks are reached
            bytes[..2].copy_from_slice(&self.p().to_le_bytes());
            bytes[2..4].copy_from_slice(&(self.list.count() as u16).to_le_bytes());
        }
        match random.below(8) {
            0 => bytes.truncate(random.below(bytes.len() + 1)),
            1 => bytes.truncate(random.below(8)),
            2 => bytes.extend(noise::<u8>(random.between(1, 7), random)),
            3 => bytes[random.below(4)] = random.below(256) as u8,
            4 => {
                let at = random.below(bytes.len());
                bytes[at] = random.below(256) as u8;
            }
            _ => {}
        }
        bytes
    }
}

/// Slots for the list, or too few or too many. Waiting turns on which slots of a party are the same, which are neighbours and how
/// far apart the outermost are, and entries of any value hardly ever agree or are neighbours: half of the cases have others.
pub fn slots_for(list: &List, random: &mut Random) -> Vec<u16> {
    let entries = near(list.count(), random);
    let among: Vec<u16> = match random.below(10) {
        // few, so that they come again and clash
        0 => noise(random.between(1, 6), random),
        1 => vec![0, 1, u16::MAX - 1, u16::MAX],
        // as many as a plan has, so that most of them are a party's own
        2 => in_a_row(list.largest_load(), random),
        3 => in_a_row(2 * list.count(), random),
        // each once
        4 => {
            let mut slots = in_a_row(entries, random);
            random.shuffle(&mut slots);
            slots.truncate(entries);
            return slots;
        }
        _ => return noise(entries, random),
    };
    (0..entries).map(|_| among[random.below(among.len())]).collect()
}

/// So many slots in a row, or one, from 0 or from any one on.
fn in_a_row(slots: usize, random: &mut Random) -> Vec<u16> {
    let slots = slots.clamp(1, 1 << 16);
    let first = if random.chance(2) { 0 } else { random.below((1 << 16) - slots + 1) };
    (first..first + slots).map(|slot| slot as u16).collect()
}

/// Changes the list in one way that a check may find.
pub fn damage(list: &mut List, random: &mut Random) {
    let any = random.below(1 << 16);
    match random.below(8) {
        0 => drop(list.ends.pop()),
        1 => list.ends.push(any as u16),
        2 => list.parties = [0, 1, MOST_PARTIES, MOST_PARTIES + 1, usize::from(BLANK)][random.below(5)],
        3 => list.parties = any,
        4 if random.chance(4) => list.ends.resize(2 * MOST_APPOINTMENTS + random.below(3), any as u16),
        _ if list.ends.is_empty() => {}
        5 => {
            let at = random.below(list.ends.len());
            list.ends[at] = BLANK;
        }
        _ => {
            let at = random.below(list.ends.len());
            list.ends[at] = any as u16;
        }
    }
}

/// Mostly the size itself; else one less, one more, or any smaller or somewhat larger one.
pub fn near(size: usize, random: &mut Random) -> usize {
    match random.below(8) {
        0 => size.saturating_sub(1),
        1 => size + 1,
        2 => random.below(size + 1),
        3 => size + random.below(100),
        _ => size,
    }
}

/// Entries of any value.
pub fn noise<T: TryFrom<usize>>(entries: usize, random: &mut Random) -> Vec<T>
where
    T::Error: Debug,
{
    let bound = 1 << (8 * std::mem::size_of::<T>());
    (0..entries).map(|_| T::try_from(random.below(bound)).expect("below the bound")).collect()
}

#[cfg(test)]
mod tests {
    use super::*;

    #[test]
    fn what_never_came_is_told() {
        let call = Call { name: "a call", numbers: &[0, 7], compare: waiting };
        let mut counts = Counts::default();
        counts.take(0);
        assert_eq!(counts.check(&call), Err("7 never came".to_string()));
        counts.take(7);
        assert_eq!(counts.check(&call), Ok(()));
        counts.take_kinds([("a kind", false), ("another", true)]);
        assert_eq!(counts.check(&call), Err("a kind never came".to_string()));
        counts.take_kinds([("a kind", true), ("another", false)]);
        assert_eq!(counts.check(&call), Ok(()));
    }

    /// Each kind of question about waiting, by P 3, the list 0-1 0-1 1-2 and D 3. Party 0 has the first two slots.
    #[test]
    fn questions_about_waiting_are_told_apart() {
        let kinds = |slots: &[u16], party: u16| {
            let case = Case { list: List::new(3, &[(0, 1), (0, 1), (1, 2)]), slots: slots.to_vec() };
            let expected = expected_waiting(&case, party);
            kinds_of_waiting(&case, party.into(), &expected).map(|(_, came)| u8::from(came))
        };
        assert_eq!(kinds(&[0, 1, 2], 3), [1, 0, 0, 0, 0, 0, 0]);
        assert_eq!(kinds(&[0, 1], 3), [0, 1, 0, 0, 0, 0, 0]);
        assert_eq!(kinds(&[0, 1], 0), [0; 7]);
        assert_eq!(kinds(&[4, 5, 9], 0), [0; 7]);
        assert_eq!(kinds(&[4, 8, 9], 0), [0, 0, 1, 0, 0, 0, 0]);
        assert_eq!(kinds(&[4, 9, 9], 0), [0, 0, 1, 1, 0, 0, 0]);
        assert_eq!(kinds(&[4, 4, 9], 0), [0, 0, 0, 0, 1, 0, 0]);
        assert_eq!(kinds(&[8, 4, 6], 0), [0, 0, 1, 0, 0, 1, 0]);
        assert_eq!(kinds(&[4, 5, 9, 7], 0), [0, 0, 0, 0, 0, 0, 1]);
    }

    #[test]
    fn a_short_run_finds_no_difference() {
        assert_eq!(compare(50, 1), Ok(()));
    }

    #[test]
    fn slots_in_a_row() {
        let mut random = Random::new(1);
        for (asked, given) in [(0, 1), (1, 1), (300, 300), (1 << 16, 1 << 16), (1 << 17, 1 << 16)] {
            let slots = in_a_row(asked, &mut random);
            assert_eq!(slots.len(), given);
            assert!(slots.windows(2).all(|two| two[0] + 1 == two[1]));
        }
    }
}
