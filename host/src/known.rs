//! Lists whose answers papers give: document 01's fifteen small lists and its limits, the example in the doc comment of
//! bipartite_coloring.rs, and the first list of docs/DIFFERENCES.md on which the Rust panics, with the slots given there, which
//! are those of the second copy of the Rust. All are written down from these papers.

use crate::answer::Answer;
use crate::list::{List, Refusal, BLANK, MOST_APPOINTMENTS, MOST_PARTIES};

/// What the paper tells of the list.
pub enum Told {
    Answer(Answer),
    /// no check refuses it
    Passes,
}

pub struct Known {
    pub list: List,
    pub told: Told,
    pub paper: &'static str,
}

const BLANK_END: usize = BLANK as usize;

type Row = (usize, &'static [(usize, usize)], Result<&'static [u16], (u8, usize)>);

/// P, the list, and its slots or the number and place of its refusal.
const FIFTEEN: [Row; 15] = [
    (0, &[], Ok(&[])),
    (3, &[], Ok(&[])),
    (2, &[(0, 1)], Ok(&[0])),
    (2, &[(1, 0)], Ok(&[0])),
    (3, &[(0, 1), (1, 2)], Ok(&[0, 1])),
    (4, &[(0, 1), (1, 2), (2, 3)], Ok(&[0, 1, 0])),
    (4, &[(0, 1), (1, 2), (2, 3), (3, 0)], Ok(&[0, 1, 0, 1])),
    (2, &[(0, 1), (0, 1)], Ok(&[1, 0])),
    (2, &[(0, 1), (0, 1), (0, 1)], Ok(&[2, 1, 0])),
    (2, &[(0, 1), (1, 0)], Ok(&[1, 0])),
    (4, &[(0, 1), (2, 3)], Ok(&[0, 0])),
    (1, &[(0, 0)], Err((9, 0))),
    (3, &[(0, 1), (1, 2), (2, 0)], Err((9, 0))),
    (2, &[(0, BLANK_END)], Err((4, 0))),
    (2, &[(0, 1), (2, BLANK_END)], Err((4, 1))),
];

/// `edge_list` and `expected_colors`.
const DOC_COMMENT: Row = (4, &[(0, 1), (1, 2), (2, 3), (3, 0)], Ok(&[0, 1, 0, 1]));

/// docs/DIFFERENCES.md has it: 6-5 six times, 6-3 twice, 4-3 twice, 5-4 five times.
const PANICKING: Row = (
    7,
    &[
        (6, 5),
        (6, 5),
        (6, 5),
        (6, 5),
        (6, 5),
        (6, 5),
        (6, 3),
        (6, 3),
        (4, 3),
        (4, 3),
        (5, 4),
        (5, 4),
        (5, 4),
        (5, 4),
        (5, 4),
    ],
    Ok(&[10, 9, 6, 5, 3, 1, 8, 4, 6, 3, 8, 7, 4, 2, 0]),
);

/// The small ones, with their answers.
pub fn small() -> Vec<Known> {
    let mut known = vec![from_row(&DOC_COMMENT, "doc comment of bipartite_coloring.rs")];
    known.extend(FIFTEEN.iter().map(|row| from_row(row, "document 01's small lists")));
    known.push(from_row(&PANICKING, "docs/DIFFERENCES.md"));
    known
}

/// Document 01's limits: the last that passes, and the first that doesn't.
pub fn limits() -> Vec<Known> {
    let passes = |list| Known { list, told: Told::Passes, paper: "document 01's limits" };
    let refused = |list, number| Known {
        list,
        told: Told::Answer(Answer::Refused(Refusal { number, place: 0 })),
        paper: "document 01's limits",
    };
    let times = |pair: (usize, usize), times: usize| vec![pair; times];
    let even_handed = |parties: usize, degree: usize| -> Vec<(usize, usize)> {
        let side = parties / 2;
        (0..side * degree).map(|at| (at % side, side + (at + at / side) % side)).collect()
    };
    let most = MOST_PARTIES;
    let busiest_of_three = |load: usize| [times((0, 1), load / 2), times((2, 0), load.div_ceil(2))].concat();
    vec![
        passes(List::new(most, &[])),
        passes(List::new(most, &[(0, most - 1)])),
        passes(List::new(most, &even_handed(most, 7))),
        passes(List::new(most, &even_handed(most, 8))),
        refused(List::new(most + 1, &[]), 1),
        refused(List::new(most + 1, &[(0, most - 1)]), 1),
        passes(List::new(2, &times((0, 1), MOST_APPOINTMENTS))),
        passes(List::new(2, &times((1, 0), MOST_APPOINTMENTS))),
        passes(List::new(128, &even_handed(128, 64))),
        refused(List::new(2, &times((0, 1), MOST_APPOINTMENTS + 1)), 3),
        refused(List::new(0, &times((BLANK_END, 1), MOST_APPOINTMENTS + 1)), 3),
        passes(List::new(3, &times((0, 1), 2730))),
        passes(List::new(3, &busiest_of_three(2730))),
        refused(List::new(3, &times((0, 1), 2731)), 6),
        refused(List::new(3, &busiest_of_three(2731)), 6),
    ]
}

fn from_row(&(parties, appointments, told): &Row, paper: &'static str) -> Known {
    let list = List::new(parties, appointments);
    let answer = match told {
        // each of these plans uses every slot below D
        Ok(slots) => Answer::Planned {
            largest_load: slots.iter().max().map_or(0, |&most| usize::from(most) + 1),
            slots: slots.to_vec(),
        },
        Err((number, place)) => Answer::Refused(Refusal { number, place }),
    };
    Known { list, told: Told::Answer(answer), paper }
}
