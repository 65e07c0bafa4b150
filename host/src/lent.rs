//! Memory that a call is lent: full of noise before, and held to what it must be afterwards, also behind the lent part.

use crate::list::{MOST_APPOINTMENTS, MOST_WORDS};
use crate::random::Random;

/// Entries behind the lent ones, which nothing may write.
pub const BEHIND: usize = 64;
/// The noise of a call begins at one of this many places of the store.
const PLACES: usize = 4096;

pub struct Lent<T> {
    /// Noise of any entries, and of small ones, which could pass for parties, slots and copies. Made once: taking a stretch of
    /// it is much faster than making new noise for each call.
    stores: [Vec<T>; 2],
    before: (usize, usize),
    held: Vec<T>,
}

/// Slots and scratch for the planning call, up to so many entries or words longer than the longest that a list needs.
pub fn for_planning(more: usize, random: &mut Random) -> (Lent<u16>, Lent<u32>) {
    let slots = Lent::new(MOST_APPOINTMENTS + 1 + more, random, |entry| entry as u16);
    (slots, Lent::new(MOST_WORDS + more, random, |entry| entry as u32))
}

impl<T: Copy + Default + PartialEq> Lent<T> {
    /// Room for calls with up to that many entries.
    pub fn new(most: usize, random: &mut Random, entry: fn(usize) -> T) -> Lent<T> {
        let stores = [1 << 32, 4]
            .map(|bound| (0..most + BEHIND + PLACES).map(|_| entry(random.below(bound))).collect::<Vec<T>>());
        Lent { stores, before: (0, 0), held: Vec::new() }
    }

    /// Noise for a call with that many entries.
    pub fn fill(&mut self, entries: usize, random: &mut Random) {
        self.before = (random.below(2), random.below(PLACES));
        self.held.resize(entries + BEHIND, T::default());
        self.fill_again();
    }

    /// The same noise once more.
    pub fn fill_again(&mut self) {
        let ((store, from), entries) = (self.before, self.held.len());
        self.held.copy_from_slice(&self.stores[store][from..][..entries]);
    }

    /// The entries to lend.
    pub fn lend(&mut self, entries: usize) -> &mut [T] {
        &mut self.held[..entries]
    }

    pub fn held(&self, entries: usize) -> &[T] {
        &self.held[..entries]
    }

    /// Where something is written at or after an entry, if anywhere.
    pub fn written_from(&self, first: usize) -> Option<usize> {
        let (store, from) = self.before;
        let before = &self.stores[store][from..][..self.held.len()];
        // equal slices are found in one comparison, and only others are searched
        if self.held[first..] == before[first..] {
            return None;
        }
        (first..self.held.len()).find(|&at| self.held[at] != before[at])
    }

    /// Where one of the first entries isn't 0, if anywhere.
    pub fn not_cleared(&self, entries: usize) -> Option<usize> {
        self.held[..entries].iter().position(|&entry| entry != T::default())
    }
}
