//! What the planning call must answer to a list where the buffers suffice: checks 1 to 6 of list.rs, then the Rust.

use crate::format::write_list;
use crate::list::{List, Refusal};
use crate::reference::{self, Outcome};
use std::fmt::Write;

#[derive(Clone, Debug, PartialEq, Eq)]
pub enum Answer {
    Planned { largest_load: usize, slots: Vec<u16> },
    Refused(Refusal),
}

/// The answer with one copy of the Rust. None is a panic.
pub fn by(run: fn(&List) -> Outcome, list: &List) -> Option<Answer> {
    let largest_load = match list.check() {
        Ok(largest_load) => largest_load,
        Err(refusal) => return Some(Answer::Refused(refusal)),
    };
    match run(list) {
        Outcome::Planned(slots) => {
            let slots = slots.into_iter().map(|slot| u16::try_from(slot).expect("slots are below D")).collect();
            Some(Answer::Planned { largest_load, slots })
        }
        Outcome::NotBipartite => Some(Answer::Refused(Refusal { number: 9, place: 0 })),
        Outcome::Panicked => None,
    }
}

/// The Rust's answer. Where it panics, that of the Rust with document 01's second search, which is then told.
pub fn by_the_rust(list: &List) -> (Answer, bool) {
    if let Some(answer) = by(reference::published, list) {
        return (answer, false);
    }
    let second = by(reference::with_second_search, list);
    (second.unwrap_or_else(|| panic!("the second search leaves no panic: {}", write_list(list))), true)
}

impl Answer {
    /// `planned D s0 s1 ..` or `refused N PLACE`.
    pub fn text(&self) -> String {
        match self {
            Answer::Planned { largest_load, slots } => {
                let mut line = format!("planned {largest_load}");
                for slot in slots {
                    write!(line, " {slot}").expect("a string can be written to");
                }
                line
            }
            Answer::Refused(Refusal { number, place }) => format!("refused {number} {place}"),
        }
    }
}
