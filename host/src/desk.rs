//! The desk's calls once more, in Rust and after the papers' text, with no line taken from the definitions or the code: waiting
//! (document 02's request 2), asking for many parties (its request 1), the filed plan and the viewer (document 01). Our exported
//! calls are compared with these.

use crate::list::{List, Refusal, MOST_APPOINTMENTS, MOST_PARTIES};
use std::collections::BTreeSet;

/// The most parties that are asked for together.
pub const MOST_ASKED: usize = 64;
/// What a party with load 0 gets for its lowest and its highest slot.
const NO_SLOT: u16 = 65_535;

fn refuse<T>(number: u8) -> Result<T, Refusal> {
    Err(Refusal { number, place: 0 })
}

/// Waiting of a party. Checks 1 to 5 on the list, then 7, then 5 with place 0 if the party is not below P.
pub fn waiting(list: &List, slots: &[u16], party: u16) -> Result<usize, Refusal> {
    list.check_ends()?;
    if slots.len() < list.count() {
        return refuse(7);
    }
    let party = usize::from(party);
    if party >= list.parties {
        return refuse(5);
    }
    Ok(waiting_in_the_hall(list, slots, party))
}

/// The number of whole numbers, below D or not, strictly between the party's lowest and highest slot that are the slot of none of
/// its appointments. (A load of 0 or 1 leaves none between.)
pub fn waiting_in_the_hall(list: &List, slots: &[u16], party: usize) -> usize {
    let own: BTreeSet<usize> = slots_of(list, slots, party).into_iter().collect();
    match (own.first(), own.last()) {
        (Some(lowest), Some(highest)) => (lowest + 1..*highest).filter(|number| !own.contains(number)).count(),
        _ => 0,
    }
}

/// The slots of the party's appointments, in list order. Entries past the appointments are no slots.
pub fn slots_of(list: &List, slots: &[u16], party: usize) -> Vec<usize> {
    let names = |(first, second): (u16, u16)| [first, second].map(usize::from).contains(&party);
    list.appointments().zip(slots).filter(|(ends, _)| names(*ends)).map(|(_, &slot)| slot.into()).collect()
}

/// For each of up to 64 parties load, lowest slot and highest slot, three entries in that order. Checks 1 to 5 on the list, then
/// 7; after those 14 if more than 64 are asked for, 15 if one is not below P, with the first such query as its place, and 13 if
/// the output is too short. Later entries of the output stay.
pub fn ask_many(list: &List, slots: &[u16], queries: &[u16], output: &mut [u16]) -> Result<(), Refusal> {
    list.check_ends()?;
    if slots.len() < list.count() {
        return refuse(7);
    }
    if queries.len() > MOST_ASKED {
        return refuse(14);
    }
    if let Some(place) = queries.iter().position(|&party| usize::from(party) >= list.parties) {
        return Err(Refusal { number: 15, place });
    }
    let Some(room) = output.get_mut(..3 * queries.len()) else {
        return refuse(13);
    };
    for (entries, &party) in room.chunks_exact_mut(3).zip(queries) {
        entries.copy_from_slice(&asked_alone(list, slots, party.into()));
    }
    Ok(())
}

/// Load, lowest slot and highest slot of one party. (With itself it has a load of 2 and one slot.)
fn asked_alone(list: &List, slots: &[u16], party: usize) -> [u16; 3] {
    let own = slots_of(list, slots, party);
    let entry = |slot: Option<&usize>| slot.map_or(NO_SLOT, |&slot| slot as u16);
    [list.load(party) as u16, entry(own.iter().min()), entry(own.iter().max())]
}

/// P and A, then per appointment first end, second end, slot; all 16-bit, low byte first. Writing checks 1, 2, 3, 7, 13 and
/// gives its length; later bytes of the output stay.
pub fn file_plan(list: &List, slots: &[u16], output: &mut [u8]) -> Result<usize, Refusal> {
    if list.parties > MOST_PARTIES {
        return refuse(1);
    }
    if list.ends.len() % 2 == 1 {
        return refuse(2);
    }
    let count = list.count();
    if count > MOST_APPOINTMENTS {
        return refuse(3);
    }
    if slots.len() < count {
        return refuse(7);
    }
    let mut numbers = vec![list.parties as u16, count as u16];
    for ((first, second), &slot) in list.appointments().zip(slots) {
        numbers.extend([first, second, slot]);
    }
    let bytes: Vec<u8> = numbers.into_iter().flat_map(u16::to_le_bytes).collect();
    let Some(room) = output.get_mut(..bytes.len()) else {
        return refuse(13);
    };
    room.copy_from_slice(&bytes);
    Ok(bytes.len())
}

/// P and A.
#[derive(Clone, Copy, Debug, PartialEq, Eq)]
pub struct Header {
    pub parties: usize,
    pub appointments: usize,
}

/// Reading checks 12 (length not 4+6×A, or under 4), 1, 3, 13 (list or slots) and gives P and A; entries past those written stay.
pub fn read_plan(bytes: &[u8], list: &mut [u16], slots: &mut [u16]) -> Result<Header, Refusal> {
    let numbers: Vec<u16> = bytes.chunks_exact(2).map(|two| u16::from_le_bytes([two[0], two[1]])).collect();
    let [parties, count, rows @ ..] = numbers.as_slice() else {
        return refuse(12);
    };
    let (parties, count) = (usize::from(*parties), usize::from(*count));
    if bytes.len() != 4 + 6 * count {
        return refuse(12);
    }
    if parties > MOST_PARTIES {
        return refuse(1);
    }
    if count > MOST_APPOINTMENTS {
        return refuse(3);
    }
    if list.len() < 2 * count || slots.len() < count {
        return refuse(13);
    }
    for (position, row) in rows.chunks_exact(3).enumerate() {
        list[2 * position] = row[0];
        list[2 * position + 1] = row[1];
        slots[position] = row[2];
    }
    Ok(Header { parties, appointments: count })
}

/// Steps over a list and its slots to the next appointment of one party.
#[derive(Clone, Debug)]
pub struct Viewer<'a> {
    list: &'a [u16],
    slots: &'a [u16],
    /// where the next step begins
    pub at: usize,
}

impl<'a> Viewer<'a> {
    /// Opening refuses 2, then 7.
    pub fn open(list: &'a [u16], slots: &'a [u16]) -> Result<Viewer<'a>, Refusal> {
        if list.len() % 2 == 1 {
            return refuse(2);
        }
        if slots.len() < list.len() / 2 {
            return refuse(7);
        }
        Ok(Viewer { list, slots, at: 0 })
    }

    /// The next appointment of the party, position and slot, or the end, where it then stays. One that names the party twice
    /// comes once.
    pub fn step(&mut self, party: u16) -> Option<(usize, u16)> {
        let appointments = self.list.chunks_exact(2).enumerate().skip(self.at);
        let named = appointments.filter(|(_, ends)| ends.contains(&party)).map(|(position, _)| position).next();
        self.at = named.map_or(self.list.len() / 2, |position| position + 1);
        named.map(|position| (position, self.slots[position]))
    }
}

#[cfg(test)]
mod tests {
    use super::*;

    /// Document 01's example: P 3, list 0-1 1-2, whose plan is the slots 0 1.
    fn example() -> (List, Vec<u16>) {
        (List::new(3, &[(0, 1), (1, 2)]), vec![0, 1])
    }

    const FILED: [u8; 16] = [3, 0, 2, 0, 0, 0, 1, 0, 0, 0, 1, 0, 2, 0, 1, 0];

    #[test]
    fn nobody_waits_in_the_example() {
        let (list, slots) = example();
        assert_eq!([0, 1, 2].map(|party| waiting(&list, &slots, party)), [Ok(0); 3]);
        assert_eq!(waiting(&list, &slots, 3), refuse(5));
    }

    #[test]
    fn the_widest_gap() {
        let list = List::new(2, &[(0, 1), (0, 1)]);
        assert_eq!(waiting(&list, &[0, 65_535], 0), Ok(65_534));
        assert_eq!(waiting(&list, &[65_535, 0], 1), Ok(65_534));
        assert_eq!(waiting(&list, &[65_535, 65_535], 0), Ok(0));
    }

    /// No appointment, one, and one of a party with itself, whose load is 2.
    #[test]
    fn with_one_slot_or_none_nobody_waits() {
        assert_eq!(waiting(&List::new(1, &[(0, 0)]), &[3], 0), Ok(0));
        assert_eq!(waiting(&List::new(3, &[(0, 1)]), &[9], 0), Ok(0));
        assert_eq!(waiting(&List::new(3, &[(0, 1)]), &[9], 2), Ok(0));
        assert_eq!(waiting(&List::new(1024, &[]), &[], 1023), Ok(0));
    }

    /// 0 has the slots 2, 7 and 4, so 3, 5 and 6 are between and not its own: the slot 5 is the other parties', and 2 and 7 are no
    /// numbers between. The order of the list doesn't matter, nor which end the party is.
    #[test]
    fn only_numbers_between_count_and_only_own_slots() {
        let list = List::new(3, &[(0, 1), (1, 2), (2, 0), (0, 1)]);
        assert_eq!(waiting(&list, &[2, 5, 7, 4], 0), Ok(3));
        assert_eq!(waiting(&list, &[7, 5, 4, 2], 0), Ok(3));
        // 1 has the slots 2, 5 and 4; 2 has 5 and 7
        assert_eq!(waiting(&list, &[2, 5, 7, 4], 1), Ok(1));
        assert_eq!(waiting(&list, &[2, 5, 7, 4], 2), Ok(1));
    }

    /// Numbers are counted and not appointments: 5 and 9 with three numbers between, however often they come.
    #[test]
    fn a_slot_that_comes_again_counts_once() {
        let list = List::new(2, &[(0, 1); 5]);
        assert_eq!(waiting(&list, &[5, 9, 5, 9, 9], 0), Ok(3));
        assert_eq!(waiting(&list, &[5, 9, 7, 7, 5], 0), Ok(2));
        assert_eq!(waiting(&List::new(1, &[(0, 0); 3]), &[5, 9, 5], 0), Ok(3));
    }

    #[test]
    fn entries_past_the_appointments_do_not_count() {
        let (list, _) = example();
        assert_eq!(waiting(&list, &[0, 3, 65_535, 1], 1), Ok(2));
        assert_eq!(waiting(&list, &[0, 3, 1, 2], 1), Ok(2));
        assert_eq!(waiting(&List::new(2, &[]), &[0, 65_535], 0), Ok(0));
    }

    #[test]
    fn waiting_refuses_by_7_and_then_for_the_party() {
        let list = List::new(2, &[(0, 1)]);
        assert_eq!(waiting(&list, &[], 9), refuse(7));
        assert_eq!(waiting(&list, &[], 0), refuse(7));
        assert_eq!(waiting(&list, &[0], 9), refuse(5));
        assert_eq!(waiting(&list, &[0], 2), refuse(5));
        assert_eq!(waiting(&list, &[0], 65_535), refuse(5));
        assert_eq!(waiting(&list, &[0], 1), Ok(0));
    }

    /// No slot entry, and a party that is not below P: 7 and the party's 5 are never told here.
    #[test]
    fn waiting_runs_checks_1_to_5_first() {
        let refused = |parties, ends: &[u16]| waiting(&List { parties, ends: ends.to_vec() }, &[], 9).unwrap_err();
        assert_eq!(refused(1025, &[0]), Refusal { number: 1, place: 0 });
        assert_eq!(refused(2, &[0, 1, 0]), Refusal { number: 2, place: 0 });
        assert_eq!(refused(2, &[0; 8194]), Refusal { number: 3, place: 0 });
        // the small lists `0-1 2-blank` and `0-blank`
        assert_eq!(refused(2, &[0, 1, 2, 65_535]), Refusal { number: 4, place: 1 });
        assert_eq!(refused(2, &[0, 65_535]), Refusal { number: 4, place: 0 });
        assert_eq!(refused(2, &[0, 1, 2, 1]), Refusal { number: 5, place: 1 });
    }

    /// What is asked for of such a list and its slots, in an output of just that many entries.
    fn asked(parties: usize, ends: &[(usize, usize)], slots: &[u16], queries: &[u16]) -> Vec<u16> {
        let mut output = vec![9; 3 * queries.len()];
        assert_eq!(ask_many(&List::new(parties, ends), slots, queries, &mut output), Ok(()));
        output
    }

    #[test]
    fn all_parties_of_the_example_together() {
        assert_eq!(asked(3, &[(0, 1), (1, 2)], &[0, 1], &[0, 1, 2]), [1, 0, 0, 2, 0, 1, 1, 1, 1]);
        assert_eq!(asked(3, &[(0, 1), (1, 2)], &[0, 1], &[2, 0, 2]), [1, 1, 1, 1, 0, 0, 1, 1, 1]);
    }

    /// Slots needn't be below D nor free of clashes, and may come in any order; those past the appointments are nobody's.
    #[test]
    fn any_slots_can_be_asked_for() {
        assert_eq!(asked(3, &[(0, 1), (0, 2)], &[5, 5], &[0]), [2, 5, 5]);
        assert_eq!(asked(3, &[(2, 1), (0, 2), (2, 1)], &[7, 9, 3], &[2, 1]), [3, 3, 9, 2, 3, 7]);
        assert_eq!(asked(3, &[(0, 1), (0, 2)], &[5, 6, 0, 65_535], &[0, 1]), [2, 5, 6, 1, 5, 5]);
    }

    /// 65,535 twice for load 0; but it is also a slot like any other.
    #[test]
    fn a_party_without_appointments_and_the_last_slot() {
        assert_eq!(asked(2, &[(0, 0)], &[5], &[0, 1, 0]), [2, 5, 5, 0, 65_535, 65_535, 2, 5, 5]);
        assert_eq!(asked(2, &[(0, 1)], &[65_535], &[0]), [1, 65_535, 65_535]);
        assert_eq!(asked(1024, &[], &[], &[1023]), [0, 65_535, 65_535]);
        assert_eq!(asked(1, &[(0, 0); 4096], &[1; 4096], &[0]), [8192, 1, 1]);
    }

    #[test]
    fn up_to_64_can_be_asked_for() {
        assert_eq!(asked(0, &[], &[], &[]), []);
        assert_eq!(asked(1, &[(0, 0)], &[3], &[0; 64]), [2, 3, 3].repeat(64));
        let refused = |queries: &[u16]| ask_many(&List::new(1, &[]), &[], queries, &mut []);
        assert_eq!(refused(&[0; 65]), refuse(14));
        assert_eq!(refused(&[7; 65]), refuse(14));
        assert_eq!(refused(&[0; 64]), refuse(13));
    }

    #[test]
    fn the_first_query_not_below_p_is_told() {
        let refused = |parties, queries: &[u16]| ask_many(&List::new(parties, &[]), &[], queries, &mut []).unwrap_err();
        assert_eq!(refused(1, &[0, 65_535]), Refusal { number: 15, place: 1 });
        assert_eq!(refused(2, &[1, 0, 2, 9]), Refusal { number: 15, place: 2 });
        assert_eq!(refused(0, &[0]), Refusal { number: 15, place: 0 });
        assert_eq!(refused(2, &[1, 0]), Refusal { number: 13, place: 0 });
    }

    /// Two parties, in an output that is one entry too short, and in one that is longer than needed.
    #[test]
    fn an_output_that_is_too_short_or_too_long() {
        let (list, slots) = example();
        let mut output = [9; 8];
        assert_eq!(ask_many(&list, &slots, &[0, 1], &mut output[..5]), refuse(13));
        assert_eq!(output, [9; 8]);
        assert_eq!(ask_many(&list, &slots, &[0, 1], &mut output), Ok(()));
        assert_eq!(output, [1, 0, 0, 2, 0, 1, 9, 9]);
        assert_eq!(ask_many(&list, &slots, &[], &mut output), Ok(()));
        assert_eq!(output, [1, 0, 0, 2, 0, 1, 9, 9]);
    }

    /// Too many are asked for, one of them is not below P, and there is no output: what is told is the list's, and then the
    /// slots'.
    #[test]
    fn asking_runs_checks_1_to_5_and_7_first() {
        let refused = |parties, ends: &[u16]| {
            let list = List { parties, ends: ends.to_vec() };
            ask_many(&list, &[], &[9; 65], &mut []).unwrap_err()
        };
        assert_eq!(refused(1025, &[0]), Refusal { number: 1, place: 0 });
        assert_eq!(refused(2, &[0, 1, 0]), Refusal { number: 2, place: 0 });
        assert_eq!(refused(2, &[0; 8194]), Refusal { number: 3, place: 0 });
        assert_eq!(refused(2, &[0, 2, 1, 65_535]), Refusal { number: 4, place: 1 });
        assert_eq!(refused(2, &[0, 1, 2, 1]), Refusal { number: 5, place: 1 });
        assert_eq!(refused(2, &[0, 1]), Refusal { number: 7, place: 0 });
        assert_eq!(refused(2, &[]), Refusal { number: 14, place: 0 });
    }

    #[test]
    fn the_example_is_filed_and_read_back() {
        let (list, slots) = example();
        let mut output = [9; 17];
        assert_eq!(file_plan(&list, &slots, &mut output), Ok(16));
        assert_eq!(output[..16], FILED);
        assert_eq!(output[16], 9);
        let (mut read_list, mut read_slots) = ([7; 5], [7; 3]);
        let header = Header { parties: 3, appointments: 2 };
        assert_eq!(read_plan(&FILED, &mut read_list, &mut read_slots), Ok(header));
        assert_eq!((read_list, read_slots), ([0, 1, 1, 2, 7], [0, 1, 7]));
    }

    #[test]
    fn writing_refuses_in_order_and_leaves_the_output() {
        let (mut list, slots) = example();
        let mut output = [9; 15];
        assert_eq!(file_plan(&list, &slots, &mut output), refuse(13));
        assert_eq!(file_plan(&list, &slots[..1], &mut output), refuse(7));
        list.ends.resize(8194, 0);
        assert_eq!(file_plan(&list, &[], &mut output), refuse(3));
        list.ends.push(0);
        assert_eq!(file_plan(&list, &[], &mut output), refuse(2));
        list.parties = 1025;
        assert_eq!(file_plan(&list, &[], &mut output), refuse(1));
        assert_eq!(output, [9; 15]);
    }

    #[test]
    fn reading_refuses_in_order_and_leaves_the_buffers() {
        let (mut list, mut slots) = ([7; 4], [7; 2]);
        for bytes in [&FILED[..15], &FILED[..14], &FILED[..4], &FILED[..3], &[]] {
            assert_eq!(read_plan(bytes, &mut list, &mut slots), refuse(12));
        }
        assert_eq!(read_plan(&[1, 4, 1, 0], &mut list, &mut slots), refuse(12));
        assert_eq!(read_plan(&[1, 4, 0, 0], &mut list, &mut slots), refuse(1));
        let mut long = vec![0; 4 + 6 * 4097];
        long[2..4].copy_from_slice(&4097_u16.to_le_bytes());
        assert_eq!(read_plan(&long, &mut list, &mut slots), refuse(3));
        assert_eq!(read_plan(&FILED, &mut list[..3], &mut slots), refuse(13));
        assert_eq!(read_plan(&FILED, &mut list, &mut slots[..1]), refuse(13));
        assert_eq!((list, slots), ([7; 4], [7; 2]));
        assert_eq!(read_plan(&[0, 4, 0, 0], &mut list, &mut slots), Ok(Header { parties: 1024, appointments: 0 }));
    }

    #[test]
    fn the_example_is_viewed() {
        let (list, slots) = example();
        let mut viewer = Viewer::open(&list.ends, &slots).unwrap();
        let seen = [1, 1, 1, 1].map(|party| (viewer.step(party), viewer.at));
        assert_eq!(seen, [(Some((0, 0)), 1), (Some((1, 1)), 2), (None, 2), (None, 2)]);
        assert_eq!(Viewer::open(&list.ends, &slots).unwrap().step(2), Some((1, 1)));
        assert_eq!(Viewer::open(&list.ends, &slots).unwrap().step(65_535), None);
    }

    #[test]
    fn a_party_with_itself_is_viewed_once() {
        let mut viewer = Viewer::open(&[0, 0, 0, 1], &[8, 5]).unwrap();
        assert_eq!([0, 0, 0].map(|party| viewer.step(party)), [Some((0, 8)), Some((1, 5)), None]);
    }

    #[test]
    fn opening_refuses_2_then_7() {
        assert_eq!(Viewer::open(&[0, 1, 2], &[]).unwrap_err(), Refusal { number: 2, place: 0 });
        assert_eq!(Viewer::open(&[0, 1], &[]).unwrap_err(), Refusal { number: 7, place: 0 });
    }
}
