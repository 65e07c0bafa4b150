//! Demand 3 of an accepted plan and of refusal 9, decided from document 01's words alone: nothing here knows how a plan is found.

use crate::list::List;

/// What an accepted plan must be: D = number of different slots = largest load, each slot below D, no party meets a slot twice,
/// and each busiest party meets every slot below D exactly once.
pub fn check_plan(list: &List, d: usize, plan: &[u16]) -> Result<(), String> {
    if plan.len() != list.count() {
        return Err(format!("{} slots for {} appointments", plan.len(), list.count()));
    }
    let mut different = plan.to_vec();
    different.sort_unstable();
    different.dedup();
    if different.len() != d {
        return Err(format!("D is {d}, and the plan has {} different slots", different.len()));
    }
    if let Some(slot) = different.last().filter(|&&slot| usize::from(slot) >= d) {
        return Err(format!("slot {slot} is not below D, which is {d}"));
    }
    let meets = Meets::count(list, d, plan);
    let largest = (0..list.parties).map(|party| meets.load(party)).max().unwrap_or(0);
    if largest != d {
        return Err(format!("D is {d}, and the largest load is {largest}"));
    }
    for party in 0..list.parties {
        if let Some(slot) = meets.of(party).iter().position(|&times| times > 1) {
            return Err(format!("party {party} meets slot {slot} more than once"));
        }
        let busiest = meets.load(party) == d;
        if let Some(slot) = meets.of(party).iter().position(|&times| times != 1).filter(|_| busiest) {
            return Err(format!("party {party} is a busiest one and doesn't meet slot {slot} once"));
        }
    }
    Ok(())
}

/// How often each party meets each slot below D.
struct Meets {
    d: usize,
    times: Vec<usize>,
}

impl Meets {
    fn count(list: &List, d: usize, plan: &[u16]) -> Meets {
        let mut times = vec![0; list.parties * d];
        for ((first, second), &slot) in list.appointments().zip(plan) {
            for end in [first, second] {
                times[usize::from(end) * d + usize::from(slot)] += 1;
            }
        }
        Meets { d, times }
    }

    fn of(&self, party: usize) -> &[usize] {
        &self.times[party * self.d..][..self.d]
    }

    /// Each appointment has one slot, so a party meets as many as it has appointments.
    fn load(&self, party: usize) -> usize {
        self.of(party).iter().sum()
    }
}

/// Whether some closed round has odd length. Parties that appointments join are kept in one tree, each with the parity of its
/// way to the tree's root; an appointment within a tree closes a round, which is odd if its two ends have the same parity. If
/// none does, the parities are two sides, and every closed round changes sides an even number of times.
pub fn has_odd_round(list: &List) -> bool {
    let mut trees = Trees { above: (0..list.parties).map(|party| (party, false)).collect() };
    list.appointments().any(|(first, second)| trees.join(first.into(), second.into()))
}

/// For each party the next one on its way to the root, and whether that way is odd. A root is above itself.
struct Trees {
    above: Vec<(usize, bool)>,
}

impl Trees {
    /// Joins the ends of an appointment; true if it closes an odd round.
    fn join(&mut self, first: usize, second: usize) -> bool {
        let (first, first_odd) = self.root(first);
        let (second, second_odd) = self.root(second);
        if first == second {
            return first_odd == second_odd;
        }
        self.above[first] = (second, first_odd == second_odd);
        false
    }

    /// The root, and whether the way to it is odd. Parties on the way are hung one step higher, which shortens later ways.
    fn root(&mut self, party: usize) -> (usize, bool) {
        let (mut at, mut odd) = (party, false);
        loop {
            let (next, step) = self.above[at];
            if next == at {
                return (at, odd);
            }
            let (further, second_step) = self.above[next];
            if further == next {
                return (next, odd ^ step);
            }
            self.above[at] = (further, step ^ second_step);
            (at, odd) = (further, odd ^ step ^ second_step);
        }
    }
}

#[cfg(test)]
mod tests {
    use super::*;

    fn path() -> List {
        List::new(4, &[(0, 1), (1, 2), (2, 3)])
    }

    #[test]
    fn a_shortest_plan_passes() {
        assert_eq!(check_plan(&path(), 2, &[0, 1, 0]), Ok(()));
        assert_eq!(check_plan(&path(), 2, &[1, 0, 1]), Ok(()));
        assert_eq!(check_plan(&List::new(3, &[]), 0, &[]), Ok(()));
        assert_eq!(check_plan(&List::new(0, &[]), 0, &[]), Ok(()));
    }

    #[test]
    fn other_plans_do_not() {
        let refused = |d, plan: &[u16]| check_plan(&path(), d, plan).unwrap_err();
        assert!(refused(2, &[0, 1]).contains("2 slots for 3"));
        assert!(refused(2, &[0, 0, 0]).contains("1 different"));
        assert!(refused(3, &[0, 1, 2]).contains("the largest load is 2"));
        assert!(refused(2, &[0, 2, 0]).contains("not below D"));
        assert!(refused(2, &[0, 1, 1]).contains("party 2 meets slot 1 more than once"));
        assert!(refused(1, &[0, 0, 0]).contains("the largest load is 2"));
    }

    #[test]
    fn odd_rounds_are_found() {
        let odd = |parties, appointments: &[(usize, usize)]| has_odd_round(&List::new(parties, appointments));
        assert!(odd(1, &[(0, 0)]));
        assert!(odd(3, &[(0, 1), (1, 2), (2, 0)]));
        assert!(odd(9, &[(7, 8), (0, 1), (3, 2), (1, 2), (4, 3), (0, 4)]));
        assert!(!odd(3, &[]));
        assert!(!odd(2, &[(0, 1), (1, 0), (0, 1)]));
        assert!(!odd(8, &[(0, 1), (2, 3), (4, 5), (6, 7), (1, 2), (5, 6), (3, 4), (7, 0)]));
    }
}
