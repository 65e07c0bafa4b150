//! Bytes for reading a filed plan, which a seed decides: lists filed as they are, damaged in several ways, at the limits of P and
//! A, and bytes of any kind.

use crate::desk_calls::{noise, Case};
use crate::list::{MOST_APPOINTMENTS, MOST_PARTIES};
use crate::lists::Lists;
use crate::random::Random;

/// Bytes of P and A, and of an appointment with its slot.
const HEADER: usize = 4;
const ROW: usize = 6;

pub struct FiledInputs {
    random: Random,
    lists: Lists,
    long_lists: Lists,
}

impl FiledInputs {
    pub fn new(seed: u64) -> FiledInputs {
        FiledInputs {
            random: Random::new(seed),
            lists: Lists::new(seed, 200, MOST_PARTIES),
            long_lists: Lists::new(seed, MOST_APPOINTMENTS, MOST_PARTIES),
        }
    }

    /// The next bytes: mostly a list of desk_calls.rs, filed, and one time in three damaged further.
    pub fn next(&mut self) -> Vec<u8> {
        let random = &mut self.random;
        let mut bytes = match random.below(16) {
            0 => with_header(random),
            1 | 2 => {
                let length = random.size(400) - 1;
                noise(length, random)
            }
            3 => Case::new(self.long_lists.any(), random).bytes(random),
            _ => Case::new(self.lists.any(), random).bytes(random),
        };
        if random.chance(3) {
            for _ in 0..random.size(8) {
                damage(&mut bytes, random);
            }
        }
        bytes
    }
}

/// A header at the limits, mostly with as many rows as it says, of noise.
fn with_header(random: &mut Random) -> Vec<u8> {
    let any = random.below(1 << 16);
    let parties = [0, 1, MOST_PARTIES - 1, MOST_PARTIES, MOST_PARTIES + 1, any][random.below(6)];
    let count = match random.below(8) {
        0 => MOST_APPOINTMENTS,
        1 => MOST_APPOINTMENTS + 1,
        2 if random.chance(8) => random.below(1 << 16),
        _ => random.size(200) - 1,
    };
    let rows = if random.chance(8) { random.size(200) } else { count };
    let mut bytes: Vec<u8> = noise(HEADER + ROW * rows, random);
    set(&mut bytes, 0, parties);
    set(&mut bytes, 2, count);
    bytes
}

/// A 16-bit number, low byte first, if there is room for it.
fn set(bytes: &mut [u8], at: usize, number: usize) {
    if let Some(two) = bytes.get_mut(at..at + 2) {
        two.copy_from_slice(&(number as u16).to_le_bytes());
    }
}

fn damage(bytes: &mut Vec<u8>, random: &mut Random) {
    let place = random.below(bytes.len() + 1);
    let any = random.below(1 << 16);
    match random.below(10) {
        0 => bytes.insert(place, any as u8),
        1 => bytes.truncate(place),
        // whole rows more or fewer
        2 => bytes.extend(noise::<u8>(ROW * random.between(1, 3), random)),
        3 => bytes.truncate(bytes.len().saturating_sub(ROW * random.between(1, 3))),
        4 => set(bytes, 0, [any, MOST_PARTIES, MOST_PARTIES + 1][random.below(3)]),
        5 => set(bytes, 2, [any, MOST_APPOINTMENTS, MOST_APPOINTMENTS + 1][random.below(3)]),
        // the header that fits the length again, if one does
        6 => {
            let rows = bytes.len().saturating_sub(HEADER) / ROW;
            set(bytes, 2, rows);
        }
        7 if place < bytes.len() => drop(bytes.remove(place)),
        8 if place < bytes.len() => bytes[place] ^= 1 << random.below(8),
        _ if place < bytes.len() => bytes[place] = any as u8,
        _ => {}
    }
}
