//! A list of appointments, its loads, and checks 1 to 8 of document 01, written from that document alone.

/// Marks a blank end.
pub const BLANK: u16 = 65_535;
pub const MOST_PARTIES: usize = 1_024;
pub const MOST_APPOINTMENTS: usize = 4_096;
/// The most that D times P may come to.
pub const MOST_CELLS: usize = 8_192;
/// The most words of scratch that a list can need.
pub const MOST_WORDS: usize = 128 * (MOST_CELLS + MOST_PARTIES);

/// P, and two ends for each appointment.
#[derive(Clone, Debug, PartialEq, Eq)]
pub struct List {
    pub parties: usize,
    pub ends: Vec<u16>,
}

/// The number of a refusal and its place.
#[derive(Clone, Copy, Debug, PartialEq, Eq)]
pub struct Refusal {
    pub number: u8,
    pub place: usize,
}

impl List {
    pub fn new(parties: usize, appointments: &[(usize, usize)]) -> List {
        let ends = appointments.iter().flat_map(|&(first, second)| [first as u16, second as u16]).collect();
        List { parties, ends }
    }

    /// The appointments. (A last end without a partner is none; check 2 refuses such a list.)
    pub fn appointments(&self) -> impl Iterator<Item = (u16, u16)> + '_ {
        self.ends.chunks_exact(2).map(|pair| (pair[0], pair[1]))
    }

    pub fn count(&self) -> usize {
        self.ends.len() / 2
    }

    /// D: how often the list names the party that it names most often, of those below P.
    pub fn largest_load(&self) -> usize {
        let mut loads = vec![0; self.parties];
        for (first, second) in self.appointments() {
            for end in [first, second] {
                if let Some(load) = loads.get_mut(usize::from(end)) {
                    *load += 1;
                }
            }
        }
        loads.into_iter().max().unwrap_or(0)
    }

    /// How often the list names the party.
    pub fn load(&self, party: usize) -> usize {
        self.appointments().flat_map(|(first, second)| [first, second]).filter(|&end| usize::from(end) == party).count()
    }

    /// The first position with such an end.
    fn first_with(&self, such: impl Fn(u16) -> bool) -> Option<usize> {
        self.appointments().position(|(first, second)| such(first) || such(second))
    }

    /// The first position with a blank end, what 4 looks for.
    pub fn first_blank(&self) -> Option<usize> {
        self.first_with(|end| end == BLANK)
    }

    /// The first position with another end that is not below P, what 5 looks for: a blank end is none.
    pub fn first_unlisted(&self) -> Option<usize> {
        self.first_with(|end| end != BLANK && usize::from(end) >= self.parties)
    }

    /// Checks 1 to 5, in this order: the first refusal, if there is one.
    pub fn check_ends(&self) -> Result<(), Refusal> {
        let refuse = |number, place| Err(Refusal { number, place });
        if self.parties > MOST_PARTIES {
            return refuse(1, 0);
        }
        if self.ends.len() % 2 == 1 {
            return refuse(2, 0);
        }
        if self.count() > MOST_APPOINTMENTS {
            return refuse(3, 0);
        }
        if let Some(place) = self.first_blank() {
            return refuse(4, place);
        }
        if let Some(place) = self.first_unlisted() {
            return refuse(5, place);
        }
        Ok(())
    }

    /// Checks 1 to 6, in this order: D, or the first refusal.
    pub fn check(&self) -> Result<usize, Refusal> {
        self.check_ends()?;
        let largest = self.largest_load();
        if largest * self.parties > MOST_CELLS {
            return Err(Refusal { number: 6, place: 0 });
        }
        Ok(largest)
    }

    /// W, the words of scratch that the list needs.
    pub fn scratch_words(&self) -> usize {
        128 * self.parties * (self.largest_load() + 1)
    }

    /// Checks 1 to 8, in this order, with a slot buffer of that many entries and scratch of that many words.
    pub fn check_lent(&self, slots: usize, scratch: usize) -> Result<usize, Refusal> {
        let largest = self.check()?;
        if slots < self.count() {
            return Err(Refusal { number: 7, place: 0 });
        }
        if scratch < self.scratch_words() {
            return Err(Refusal { number: 8, place: 0 });
        }
        Ok(largest)
    }
}

#[cfg(test)]
mod tests {
    use super::*;

    /// Document 02's request 4, of lists with P 2: 4 covers the whole list, and a blank end is none for 5.
    #[test]
    fn the_first_blank_and_the_first_other_end() {
        let firsts = |ends: &[(usize, usize)]| {
            let list = List::new(2, ends);
            (list.first_blank(), list.first_unlisted())
        };
        assert_eq!(firsts(&[(0, 65_535), (0, 7)]), (Some(0), Some(1)));
        assert_eq!(firsts(&[(0, 7), (0, 65_535)]), (Some(1), Some(0)));
        assert_eq!(firsts(&[(0, 1), (7, 65_535)]), (Some(1), Some(1)));
        assert_eq!(firsts(&[(65_535, 65_535), (1, 0)]), (Some(0), None));
        assert_eq!(firsts(&[(1, 0), (0, 65_534)]), (None, Some(1)));
        assert_eq!(firsts(&[(1, 0)]), (None, None));
        assert_eq!(List::new(2, &[(0, 7), (0, 65_535)]).check_ends(), Err(Refusal { number: 4, place: 1 }));
    }

    /// Document 01's example has A = 2 and D = 2, so W is 128×3×3.
    #[test]
    fn too_short_buffers_are_refused_in_order() {
        let list = List::new(3, &[(0, 1), (1, 2)]);
        let refused = |number| Err(Refusal { number, place: 0 });
        assert_eq!(list.scratch_words(), 1152);
        assert_eq!(list.check_lent(2, 1152), Ok(2));
        assert_eq!(list.check_lent(9, 9999), Ok(2));
        assert_eq!(list.check_lent(1, 1152), refused(7));
        assert_eq!(list.check_lent(2, 1151), refused(8));
        assert_eq!(list.check_lent(1, 0), refused(7));
        assert_eq!(List::new(1025, &[]).check_lent(0, 0), refused(1));
        assert_eq!(List::new(0, &[]).check_lent(0, 0), Ok(0));
    }
}
