//! Input for main, which a seed decides: lists that it plans, lists for each refusal that it can reach, both with some bytes or
//! lines changed, and bytes of any kind.

use crate::list::{List, BLANK, MOST_CELLS, MOST_PARTIES};
use crate::lists::Lists;
use crate::main_changes;
use crate::main_text::MOST_BYTES;
use crate::random::Random;

/// The most that P times D + 1 may come to, so that 128 times as many words are not more than main lends.
const MOST_ROOM: usize = 128;
/// The bytes of which lists are made, and these with others among them.
const OF_LISTS: &[u8] = b"0123456789,\n";
const MIXED: &[u8] = b"0123456789,,,\n\n\n\r \t-+.;:/xe\0\xff";

pub struct Inputs {
    random: Random,
    /// lists of which many fit into what main lends
    small: Lists,
    /// lists that check 8 refuses, if no earlier one does
    large: Lists,
}

type Source = fn(&mut Inputs) -> Vec<u8>;

/// Whole lists, right and wrong ones.
const SOURCES: [Source; 12] = [
    planned,
    planned,
    near_a_panic,
    any_small,
    any_large,
    at_the_room,
    too_many_parties,
    blank_ends,
    no_parties,
    too_many_cells,
    not_two_sided,
    of_a_length,
];

impl Inputs {
    pub fn new(seed: u64) -> Inputs {
        let lists = |most| Lists::new(seed, most, 2 * most);
        Inputs { random: Random::new(seed), small: lists(MOST_ROOM / 2), large: lists(MOST_PARTIES / 2) }
    }

    /// The next input: mostly a list, else noise, or the front of one list and the back of another.
    pub fn next(&mut self) -> Vec<u8> {
        let mut input = match self.random.below(12) {
            0 => noise(&mut self.random),
            1 => {
                let (mut front, back) = (self.list(), self.list());
                front.truncate(self.random.below(front.len() + 1));
                front.extend(&back[self.random.below(back.len() + 1)..]);
                front
            }
            _ => self.list(),
        };
        let changes = [0, 0, 0, 1, 1, self.random.between(2, 8)][self.random.below(6)];
        for _ in 0..changes {
            main_changes::change(&mut input, &mut self.random);
        }
        input
    }

    fn list(&mut self) -> Vec<u8> {
        let source = SOURCES[self.random.below(SOURCES.len())];
        source(self)
    }

    fn write(&mut self, list: &List) -> Vec<u8> {
        write(list, &mut self.random)
    }

    /// Which end of a list to change, if it has any.
    fn any_end(&mut self, list: &List) -> Option<usize> {
        (!list.ends.is_empty()).then(|| self.random.below(list.ends.len()))
    }
}

/// A list as text. Some have leading zeros.
fn write(list: &List, random: &mut Random) -> Vec<u8> {
    let zeros = random.chance(4);
    let mut number = |value: usize| {
        let width = if zeros { random.between(1, 5) } else { 1 };
        match value == usize::from(BLANK) {
            true => String::new(),
            false => format!("{value:0width$}"),
        }
    };
    let mut text = number(list.parties) + "\n";
    for (first, second) in list.appointments() {
        text += &format!("{},{}\n", number(first.into()), number(second.into()));
    }
    text.into_bytes()
}

/// A list with two sides for which main's scratch suffices; often as busy as it can be.
fn fitting(random: &mut Random) -> List {
    let most_load = random.size(MOST_ROOM / 2) - 1;
    let most_parties = MOST_ROOM / (most_load + 1);
    let parties = if random.chance(2) { most_parties } else { random.between(2, most_parties) };
    with_loads(random, parties, most_load)
}

/// Appointments between two sides of these parties, none of which comes to more than that load.
fn with_loads(random: &mut Random, parties: usize, most_load: usize) -> List {
    let mut numbers: Vec<usize> = (0..parties).collect();
    random.shuffle(&mut numbers);
    let left = if random.chance(2) { parties / 2 } else { random.between(1, parties - 1) };
    let (left, right) = numbers.split_at(left);
    // each party as often as it may be named; appointments are drawn from these
    let mut open = [left, right].map(|side| side.repeat(most_load));
    open.iter_mut().for_each(|side| random.shuffle(side));
    let most = open[0].len().min(open[1].len());
    let count = if random.chance(2) { most } else { random.below(most + 1) };
    let [firsts, seconds] = open;
    let appointments: Vec<(usize, usize)> = firsts
        .into_iter()
        .zip(seconds)
        .take(count)
        .map(|(a, b)| if random.chance(2) { (a, b) } else { (b, a) })
        .collect();
    List::new(parties, &appointments)
}

fn planned(inputs: &mut Inputs) -> Vec<u8> {
    let list = fitting(&mut inputs.random);
    inputs.write(&list)
}

fn near_a_panic(inputs: &mut Inputs) -> Vec<u8> {
    let list = inputs.small.near_a_panic();
    inputs.write(&list)
}

fn any_small(inputs: &mut Inputs) -> Vec<u8> {
    let list = inputs.small.any();
    inputs.write(&list)
}

fn any_large(inputs: &mut Inputs) -> Vec<u8> {
    let list = inputs.large.any();
    inputs.write(&list)
}

/// Just as much scratch as main lends, or a little more: 8.
fn at_the_room(inputs: &mut Inputs) -> Vec<u8> {
    let random = &mut inputs.random;
    let parties = 1 << random.between(1, 7);
    let most_load = MOST_ROOM / parties - 1;
    let mut list = match random.below(3) {
        0 => with_loads(random, parties, most_load + 1),
        _ => with_loads(random, parties, most_load),
    };
    list.parties += [0, 0, 1][random.below(3)];
    inputs.write(&list)
}

/// 1, or the most parties.
fn too_many_parties(inputs: &mut Inputs) -> Vec<u8> {
    let random = &mut inputs.random;
    let mut list = fitting(random);
    let any = random.between(MOST_PARTIES, usize::from(BLANK) - 1);
    list.parties = [MOST_PARTIES, MOST_PARTIES + 1, usize::from(BLANK) - 1, any][random.below(4)];
    inputs.write(&list)
}

/// 4.
fn blank_ends(inputs: &mut Inputs) -> Vec<u8> {
    let mut list = fitting(&mut inputs.random);
    for _ in 0..inputs.random.between(1, 3) {
        if let Some(at) = inputs.any_end(&list) {
            list.ends[at] = BLANK;
        }
    }
    inputs.write(&list)
}

/// 5: ends that are P or more, sometimes with a blank one before or behind, which is told first.
fn no_parties(inputs: &mut Inputs) -> Vec<u8> {
    let mut list = fitting(&mut inputs.random);
    for _ in 0..inputs.random.between(1, 3) {
        if let Some(at) = inputs.any_end(&list) {
            let random = &mut inputs.random;
            let any = random.between(list.parties, usize::from(BLANK) - 1);
            let end = [list.parties, any, any, usize::from(BLANK) - 1 + random.below(2)][random.below(4)];
            list.ends[at] = end as u16;
        }
    }
    inputs.write(&list)
}

/// 6, or as many cells as there may be, which is 8: one party meets all others, or just one of them, some hundred times.
fn too_many_cells(inputs: &mut Inputs) -> Vec<u8> {
    let random = &mut inputs.random;
    let load = random.between(MOST_CELLS / MOST_PARTIES, 700);
    let parties = (MOST_CELLS / load + random.below(3)).min(MOST_PARTIES);
    let others = if random.chance(2) { 1 } else { parties - 1 };
    let appointments: Vec<(usize, usize)> = (0..load).map(|_| (0, 1 + random.below(others))).collect();
    let list = List::new(parties, &appointments);
    inputs.write(&list)
}

/// 9, unless the changed ends leave two sides or make D larger.
fn not_two_sided(inputs: &mut Inputs) -> Vec<u8> {
    let mut list = fitting(&mut inputs.random);
    for _ in 0..inputs.random.between(1, 3) {
        if let Some(at) = inputs.any_end(&list) {
            list.ends[at] = inputs.random.below(list.parties) as u16;
        }
    }
    inputs.write(&list)
}

/// Of as many bytes as main takes, of one or two more or less, of far more, or of next to none. No whole line is malformed.
fn of_a_length(inputs: &mut Inputs) -> Vec<u8> {
    let random = &mut inputs.random;
    let length = length(random);
    let parties = random.between(1, MOST_PARTIES + 1);
    let mut text = format!("{parties}\n").into_bytes();
    // a line has 4 to 12 bytes, so what is left behind it must be nothing or 4 bytes at least
    while text.len() + 4 <= length {
        let left = length - text.len();
        let bytes = if left <= 12 { left } else { random.between(4, 12.min(left - 4)) };
        let first = random.between((bytes - 2).saturating_sub(5).max(1), (bytes - 3).min(5));
        let widths = [first, bytes - 2 - first];
        let [first, second] = widths.map(|width| {
            let below = parties.min(10_usize.pow(width as u32));
            format!("{:0width$}", random.below(below))
        });
        text.extend(format!("{first},{second}\n").into_bytes());
    }
    text.truncate(length);
    text
}

/// Inputs of exactly as many bytes as main takes, each with the number that must come: lists without a malformed line, which the
/// planning call refuses (4,096 bytes have far more lines than main's scratch has room for), and malformed ones.
pub fn of_the_most_bytes() -> Vec<(Vec<u8>, u8)> {
    let list = |first: &str, last: &str, number: u8| (filled(first, last, MOST_BYTES), number);
    vec![
        list("002\n", "0,1\n", 8),
        list("009\n", "0,1\n", 6),
        list("002\n", "10,\n", 4),
        list("002\n", "0,2\n", 5),
        list("1025\n", "00,001\n", 1),
        list("2\n", "0,", 10),
        list("2\n", "0\n", 10),
        (vec![b'0'; MOST_BYTES], 10),
        (vec![b'\n'; MOST_BYTES], 10),
    ]
}

/// The same with one byte more, a zero before them: 11, also of those that have no malformed line.
pub fn of_one_byte_more() -> Vec<(Vec<u8>, u8)> {
    of_the_most_bytes().into_iter().map(|(input, _)| ([b"0".as_slice(), &input].concat(), 11)).collect()
}

/// Lines `0,1` between a first and a last one, up to that length.
fn filled(first: &str, last: &str, length: usize) -> Vec<u8> {
    const LINE: &str = "0,1\n";
    let left = length - first.len() - last.len();
    assert_eq!(left % LINE.len(), 0, "whole lines fit between {first:?} and {last:?}");
    [first, &LINE.repeat(left / LINE.len()), last].concat().into_bytes()
}

/// A length at which main's answer can turn, or a far larger one.
fn length(random: &mut Random) -> usize {
    let far = random.between(MOST_BYTES, 1 << 18);
    [0, 1, MOST_BYTES - 1, MOST_BYTES, MOST_BYTES, MOST_BYTES + 1, MOST_BYTES + 2, far][random.below(8)]
}

/// Bytes of any kind, or of those that lists have.
fn noise(random: &mut Random) -> Vec<u8> {
    let length = if random.chance(4) { length(random) } else { random.size(2 * MOST_BYTES) - 1 };
    let kind = random.below(3);
    let mut byte = || match kind {
        0 => random.below(256) as u8,
        1 => OF_LISTS[random.below(OF_LISTS.len())],
        _ => MIXED[random.below(MIXED.len())],
    };
    (0..length).map(|_| byte()).collect()
}

#[cfg(test)]
mod tests {
    use super::*;
    use crate::main_text;

    #[test]
    fn inputs_of_exact_lengths_are_answered_as_they_say() {
        for (length, inputs) in [(MOST_BYTES, of_the_most_bytes()), (MOST_BYTES + 1, of_one_byte_more())] {
            for (input, number) in inputs {
                assert_eq!((input.len(), main_text::output(&input).number), (length, number));
            }
        }
    }
}
