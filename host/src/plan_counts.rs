//! What kinds of lists a comparison of the planning call has had, and of which it must have had enough.

use crate::answer::Answer;
use crate::list::{List, Refusal, MOST_APPOINTMENTS, MOST_PARTIES};

/// From this many lists on, the quotas decide.
const ENOUGH: usize = 100_000;

#[derive(Default)]
pub struct Counts {
    lists: usize,
    most_appointments: usize,
    accepted: usize,
    accepted_from_3: usize,
    odd_from_11: usize,
    panicked: usize,
    /// P 1,024 and 1,025, A 4,096 and 4,097, and either
    limits: [usize; 4],
    at_a_limit: usize,
    accepted_at_a_limit: usize,
    /// how often each number is the answer where the buffers suffice
    refused: [usize; 10],
    calls: usize,
    longer: usize,
    refused_by_7: usize,
    refused_by_8: usize,
    pub plans_held_to_demand_3: usize,
}

impl Counts {
    /// A list, and its answer where the buffers suffice.
    pub fn take(&mut self, list: &List, answer: &Answer, panicked: bool) {
        self.lists += 1;
        self.most_appointments = self.most_appointments.max(list.count());
        self.panicked += usize::from(panicked);
        let limits = [
            list.parties == MOST_PARTIES,
            list.parties == MOST_PARTIES + 1,
            list.count() == MOST_APPOINTMENTS,
            list.count() == MOST_APPOINTMENTS + 1,
        ];
        for (times, at_it) in self.limits.iter_mut().zip(limits) {
            *times += usize::from(at_it);
        }
        let at_a_limit = limits.contains(&true);
        self.at_a_limit += usize::from(at_a_limit);
        match *answer {
            Answer::Planned { largest_load, .. } => {
                self.accepted += 1;
                self.accepted_from_3 += usize::from(largest_load >= 3);
                self.odd_from_11 += usize::from(largest_load >= 11 && largest_load % 2 == 1);
                self.accepted_at_a_limit += usize::from(at_a_limit);
            }
            Answer::Refused(Refusal { number, .. }) => self.refused[usize::from(number)] += 1,
        }
    }

    /// One call with buffers of these lengths, and what it must answer.
    pub fn call(&mut self, list: &List, expected: &Answer, entries: usize, words: usize) {
        self.calls += 1;
        match expected {
            Answer::Refused(Refusal { number: 7, .. }) => self.refused_by_7 += 1,
            Answer::Refused(Refusal { number: 8, .. }) => self.refused_by_8 += 1,
            Answer::Refused(Refusal { number: 1..=6, .. }) => {}
            _ => self.longer += usize::from(entries > list.count() && words > list.scratch_words()),
        }
    }

    pub fn add(&mut self, other: &Counts) {
        self.lists += other.lists;
        self.most_appointments = self.most_appointments.max(other.most_appointments);
        self.accepted += other.accepted;
        self.accepted_from_3 += other.accepted_from_3;
        self.odd_from_11 += other.odd_from_11;
        self.panicked += other.panicked;
        self.at_a_limit += other.at_a_limit;
        self.accepted_at_a_limit += other.accepted_at_a_limit;
        self.calls += other.calls;
        self.longer += other.longer;
        self.refused_by_7 += other.refused_by_7;
        self.refused_by_8 += other.refused_by_8;
        self.plans_held_to_demand_3 += other.plans_held_to_demand_3;
        for (times, more) in self.limits.iter_mut().zip(other.limits) {
            *times += more;
        }
        for (times, more) in self.refused.iter_mut().zip(other.refused) {
            *times += more;
        }
    }

    pub fn print(&self) {
        println!("{} lists of up to {} appointments, of which", self.lists, self.most_appointments);
        println!("{:8} accepted", self.accepted);
        for (times, _, kind) in self.quotas() {
            println!("{times:8} {kind}");
        }
        let [p_most, p_more, a_most, a_more] = self.limits;
        println!("         ({p_most} with P 1024, {p_more} with P 1025, {a_most} with A 4096, {a_more} with A 4097;");
        println!("         {} of these accepted)", self.accepted_at_a_limit);
        for (number, times) in self.refused.iter().enumerate().filter(|&(_, &times)| times > 0) {
            println!("{times:8} refused by {number}");
        }
        println!("{} calls, of which", self.calls);
        println!("{:8} with longer buffers than needed", self.longer);
        println!("{:8} with too few slot entries, refused by 7", self.refused_by_7);
        println!("{:8} with too few words of scratch, refused by 8", self.refused_by_8);
        println!("{:8} plans held to demand 3", self.plans_held_to_demand_3);
    }

    /// How many lists of a kind there are, how many there must be, and the kind.
    fn quotas(&self) -> [(usize, usize, &'static str); 4] {
        [
            (self.accepted_from_3, self.lists.div_ceil(2), "accepted with a D of 3 or more"),
            (self.odd_from_11, 10_000, "accepted with an odd D of 11 or more"),
            (self.panicked, 100, "on which the Rust panics, compared with its copy with the second search"),
            (self.at_a_limit, 1_000, "with P or A at its limit or one past it"),
        ]
    }

    /// A short run needn't have enough of each kind.
    pub fn check_quotas(&self, asked: usize) -> Result<(), String> {
        if asked < ENOUGH {
            return Ok(());
        }
        let short = self.quotas().into_iter().find(|&(times, least, _)| times < least);
        short.map_or(Ok(()), |(times, least, kind)| Err(format!("only {times} of {least} lists {kind}")))
    }
}
