//! Shows by example what is proved: cancelling can't lengthen a plan. Lists are planned, and then choices of their appointments,
//! each at most once and in any order, with the same P and buffers: each must be accepted, with a D that is no larger.

use crate::bimtsure::{self, Plan};
use crate::demand3;
use crate::format::write_list;
use crate::known;
use crate::lent::{self, Lent};
use crate::list::{List, MOST_APPOINTMENTS, MOST_CELLS, MOST_PARTIES};
use crate::lists::Lists;
use crate::random::Random;

/// The most entries or words by which a buffer is longer than needed.
const MOST_MORE: usize = 100;
/// From this many random lists on each kind of choice must have come.
const ENOUGH: usize = 1000;

/// What has been planned.
#[derive(Default)]
struct Counts {
    lists: usize,
    /// those of them with 4,096 appointments, 1,024 parties or D·P of 8,192
    at_a_limit: usize,
    refused: usize,
    empty: usize,
    one_cancelled: usize,
    /// all kept in another order
    reordered: usize,
    same_d: usize,
    smaller_d: usize,
}

struct Caller {
    random: Random,
    slots: Lent<u16>,
    scratch: Lent<u32>,
    counts: Counts,
}

/// COUNT random lists after those that papers name. An error names a list and a choice that break the promise.
pub fn show(count: usize, seed: u64) -> Result<(), String> {
    let mut caller = Caller::new(!seed);
    for known in known::small().into_iter().chain(known::limits()) {
        caller.cancel(&known.list)?;
    }
    let mut lists = Lists::new(seed, MOST_APPOINTMENTS, MOST_PARTIES);
    for _ in 0..count {
        caller.cancel(&lists.mixed())?;
    }
    caller.counts.print();
    caller.counts.check(count)?;
    Ok(println!("no plan became longer"))
}

impl Caller {
    fn new(seed: u64) -> Caller {
        let mut random = Random::new(seed);
        let (slots, scratch) = lent::for_planning(MOST_MORE, &mut random);
        Caller { random, slots, scratch, counts: Counts::default() }
    }

    /// Plans the list, and if it is accepted, choices of its appointments.
    fn cancel(&mut self, list: &List) -> Result<(), String> {
        let words = if list.check().is_ok() { list.scratch_words() } else { 0 };
        let [more_entries, more_words] = [(); 2].map(|()| self.random.below(MOST_MORE + 1));
        let lengths = (list.count() + more_entries, words + more_words);
        self.slots.fill(lengths.0, &mut self.random);
        self.scratch.fill(lengths.1, &mut self.random);
        let planned = self.plan(list, lengths);
        if planned.number != 0 {
            self.counts.refused += 1;
            return Ok(());
        }
        self.counts.take(list, planned.d as usize);
        let mut choices = vec![self.any(list.count()), self.all_but_one(list.count())];
        if self.counts.lists % 8 == 0 {
            choices.extend([Vec::new(), self.in_another_order(list.count())]);
        }
        choices.iter().try_for_each(|choice| self.keep(list, planned.d, choice, lengths))
    }

    /// One call with the buffers as they were filled.
    fn plan(&mut self, list: &List, (entries, words): (usize, usize)) -> Plan {
        let p = u16::try_from(list.parties).expect("the lists have fewer parties");
        self.slots.fill_again();
        self.scratch.fill_again();
        bimtsure::plan(p, &list.ends, self.slots.lend(entries), self.scratch.lend(words))
    }

    /// Plans what stands at these positions.
    fn keep(&mut self, list: &List, d: u32, positions: &[usize], lengths: (usize, usize)) -> Result<(), String> {
        let ends = positions.iter().flat_map(|&at| [list.ends[2 * at], list.ends[2 * at + 1]]).collect();
        let kept = List { parties: list.parties, ends };
        let planned = self.plan(&kept, lengths);
        let told = || format!("{}\nD {d}; of it\n{}\n", write_list(list), write_list(&kept));
        if planned.number != 0 || planned.d > d {
            return Err(format!("{}was answered {planned:?}", told()));
        }
        demand3::check_plan(&kept, planned.d as usize, self.slots.held(kept.count()))
            .map_err(|error| format!("{}{error}", told()))?;
        self.counts.choice(list.count(), positions.len(), planned.d == d);
        Ok(())
    }

    fn any(&mut self, count: usize) -> Vec<usize> {
        let mut positions = self.in_another_order(count);
        positions.truncate(self.random.below(count + 1));
        positions
    }

    /// All in order but one, as after a call that cancels it.
    fn all_but_one(&mut self, count: usize) -> Vec<usize> {
        let cancelled = self.random.below(count.max(1));
        (0..count).filter(|&at| at != cancelled).collect()
    }

    fn in_another_order(&mut self, count: usize) -> Vec<usize> {
        let mut positions: Vec<usize> = (0..count).collect();
        self.random.shuffle(&mut positions);
        positions
    }
}

impl Counts {
    fn take(&mut self, list: &List, d: usize) {
        let limit = list.count() == MOST_APPOINTMENTS || list.parties == MOST_PARTIES || d * list.parties == MOST_CELLS;
        self.lists += 1;
        self.at_a_limit += usize::from(limit);
    }

    fn choice(&mut self, count: usize, kept: usize, same_d: bool) {
        self.empty += usize::from(kept == 0);
        self.one_cancelled += usize::from(kept + 1 == count);
        self.reordered += usize::from(kept == count && count > 1);
        *(if same_d { &mut self.same_d } else { &mut self.smaller_d }) += 1;
    }

    fn print(&self) {
        println!(
            "{} lists planned, {} of them at a limit; {} refused and passed over",
            self.lists, self.at_a_limit, self.refused
        );
        println!(
            "{} choices kept, all accepted, {} with the same D, {} with a smaller one; {} empty, {} with one cancelled, {} whole lists in another order",
            self.same_d + self.smaller_d,
            self.same_d,
            self.smaller_d,
            self.empty,
            self.one_cancelled,
            self.reordered
        );
    }

    /// Whether each kind came.
    fn check(&self, count: usize) -> Result<(), String> {
        let kinds = [
            ("list at a limit", self.at_a_limit),
            ("choice with the same D", self.same_d),
            ("choice with a smaller D", self.smaller_d),
            ("empty choice", self.empty),
            ("list with one appointment cancelled", self.one_cancelled),
            ("whole list in another order", self.reordered),
        ];
        match kinds.iter().find(|&&(_, times)| count >= ENOUGH && times < count / ENOUGH) {
            Some((kind, times)) => Err(format!("only {times} times: {kind}")),
            None if count >= ENOUGH && self.lists < count / 2 => Err(format!("only {} lists were planned", self.lists)),
            None => Ok(()),
        }
    }
}

#[cfg(test)]
mod tests {
    use super::*;

    /// A caller with buffers filled for this list, and their lengths.
    fn filled_for(list: &List) -> (Caller, (usize, usize)) {
        let (mut caller, lengths) = (Caller::new(1), (list.count(), list.scratch_words()));
        caller.slots.fill(lengths.0, &mut Random::new(2));
        caller.scratch.fill(lengths.1, &mut Random::new(3));
        (caller, lengths)
    }

    /// Document 02's reading: of two equal appointments both may be kept.
    #[test]
    fn equal_appointments_count_apart() {
        let list = List::new(2, &[(0, 1), (0, 1)]);
        let (mut caller, lengths) = filled_for(&list);
        assert_eq!(caller.plan(&list, lengths).d, 2);
        for positions in [vec![1, 0], vec![1], vec![]] {
            caller.keep(&list, 2, &positions, lengths).unwrap();
        }
        let Counts { same_d, smaller_d, empty, reordered, .. } = caller.counts;
        assert_eq!((same_d, smaller_d, empty, reordered), (1, 2, 1, 1));
    }

    /// A plan that did become longer would be told.
    #[test]
    fn a_longer_plan_is_told() {
        let list = List::new(2, &[(0, 1), (0, 1)]);
        let (mut caller, lengths) = filled_for(&list);
        assert!(caller.keep(&list, 1, &[0, 1], lengths).is_err());
    }
}
