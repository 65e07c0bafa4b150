//! Random lists of many kinds. A seed decides them.

use crate::list::{List, BLANK, MOST_APPOINTMENTS, MOST_CELLS, MOST_PARTIES};
use crate::random::Random;

/// Pairs over parties 0 to count-1, before they get their numbers in a list.
struct Shape {
    count: usize,
    pairs: Vec<(usize, usize)>,
}

type Kind = fn(&mut Random, usize) -> Shape;

/// The least limit of appointments that every kind can keep: `with_odd_round` makes at least three pairs.
pub const LEAST_MOST: usize = 3;

/// Kinds that pass checks 1 to 6. Each makes at most the given number of pairs (at least 1), but `with_odd_round` at least
/// three.
const KINDS: [Kind; 13] = [
    even_handed,
    two_thirds_full,
    star,
    repeats,
    busy_few,
    pieces,
    sparse,
    lopsided,
    path_or_round,
    anything,
    with_self_pair,
    with_odd_round,
    empty,
];

/// Those of them that have two sides and can have a large D.
const BUSY_KINDS: [Kind; 8] = [even_handed, two_thirds_full, star, repeats, busy_few, pieces, sparse, lopsided];

/// first end, second end, copies
type Copies = (usize, usize, usize);

/// P, and pairs with their copies, of lists on which the Rust panics: D is 11 in the first four and 13 in the last. With twice
/// or four times the copies the panic comes at a later half.
const PANICKING: [(usize, &[Copies]); 5] = [
    (7, &[(6, 5, 6), (6, 3, 2), (4, 3, 2), (5, 4, 5)]),
    (7, &[(6, 5, 5), (6, 3, 2), (4, 3, 2), (5, 4, 6)]),
    (7, &[(6, 5, 6), (6, 4, 5), (4, 3, 2), (5, 3, 2)]),
    (7, &[(6, 4, 6), (6, 3, 2), (5, 3, 2), (5, 4, 5)]),
    (13, &[(4, 10, 5), (5, 11, 5), (7, 10, 8), (12, 9, 6), (4, 9, 7), (6, 8, 10), (8, 11, 3)]),
];

pub struct Lists {
    random: Random,
    most_appointments: usize,
    most_parties: usize,
    made: usize,
}

impl Lists {
    pub fn new(seed: u64, most_appointments: usize, most_parties: usize) -> Lists {
        Lists {
            random: Random::new(seed),
            most_appointments: most_appointments.clamp(LEAST_MOST, MOST_APPOINTMENTS),
            most_parties: most_parties.clamp(16, MOST_PARTIES),
            made: 0,
        }
    }

    /// The next list: the kinds come in turn, and after them one near those on which the Rust panics, and one that checks 1 to
    /// 6 refuse.
    pub fn any(&mut self) -> List {
        let turn = self.made % (KINDS.len() + 2);
        self.made += 1;
        match turn {
            turn if turn < KINDS.len() => self.passing(KINDS[turn]),
            turn if turn == KINDS.len() => self.near_a_panic(),
            _ => refused(&mut self.random, self.most_appointments),
        }
    }

    /// The next list of a mix for the planning call, in which most lists have two sides and a D of 3 or more: the Rust does
    /// next to nothing on the others. Many have an odd D of 11 or more, which is where it can panic.
    pub fn mixed(&mut self) -> List {
        let turn = self.made % 64;
        let most = self.most_appointments;
        let list = match turn % 16 {
            0 if turn == 0 && most == MOST_APPOINTMENTS => at_a_limit(&mut self.random),
            1..=8 => self.two_sided(|largest_load| largest_load >= 3),
            9..=11 if most >= 11 => self.two_sided(|largest_load| largest_load >= 11 && largest_load % 2 == 1),
            // 64 and the number of turns there have no common divisor, so every kind comes
            _ => return self.any(),
        };
        self.made += 1;
        list
    }

    /// A list with two sides whose D is as wanted.
    fn two_sided(&mut self, wanted: fn(usize) -> bool) -> List {
        loop {
            let kind = BUSY_KINDS[self.random.below(BUSY_KINDS.len())];
            let list = self.passing(kind);
            if wanted(list.largest_load()) {
                return list;
            }
        }
    }

    /// A list in which few parties meet often, so that D is large.
    pub fn busy(&mut self) -> List {
        self.passing(busy_few)
    }

    /// A list with the pairs of one on which the Rust panics, in another order and turned at random: on about a quarter of
    /// them it panics too. (No list of the other kinds was seen to make it panic.)
    pub fn near_a_panic(&mut self) -> List {
        let random = &mut self.random;
        let (parties, pairs) = PANICKING[random.below(PANICKING.len())];
        let count: usize = pairs.iter().map(|(_, _, copies)| copies).sum();
        let times = [1, 1, 2, 4][random.below(4)];
        if count * times > self.most_appointments {
            return self.busy();
        }
        let mut runs = pairs.to_vec();
        random.shuffle(&mut runs);
        let mut appointments = Vec::new();
        for (first, second, copies) in runs {
            let pair = if random.chance(2) { (first, second) } else { (second, first) };
            appointments.extend((0..copies * times).map(|_| pair));
        }
        if random.chance(2) {
            random.shuffle(&mut appointments);
        }
        List::new(parties, &appointments)
    }

    fn passing(&mut self, kind: Kind) -> List {
        loop {
            let small = !self.random.chance(4);
            let most = self.most_appointments;
            let most = if small { self.random.size(most) } else { self.random.between(1, most) };
            let shape = kind(&mut self.random, most);
            if shape.count > self.most_parties || shape.pairs.len() > self.most_appointments {
                continue;
            }
            let list = number(&mut self.random, shape, self.most_parties);
            if list.check().is_ok() {
                return list;
            }
        }
    }
}

/// Gives the parties of a shape numbers below some P, and the pairs an order and an orientation.
fn number(random: &mut Random, shape: Shape, most_parties: usize) -> List {
    let room = match random.below(4) {
        0 => most_parties,
        1 => most_parties.min(shape.count + 4),
        _ => shape.count,
    };
    let parties = random.between(shape.count, room.max(shape.count));
    let mut numbers: Vec<usize> = (0..parties).collect();
    if !random.chance(4) {
        random.shuffle(&mut numbers);
    }
    let mut pairs = shape.pairs;
    match random.below(4) {
        0 => {}
        1 => pairs.sort_unstable(),
        _ => random.shuffle(&mut pairs),
    }
    let turned = random.below(4);
    let appointments: Vec<(usize, usize)> = pairs
        .into_iter()
        .map(|(a, b)| {
            let flip = if turned < 2 { turned == 1 } else { random.chance(2) };
            let (a, b) = if flip { (b, a) } else { (a, b) };
            (numbers[a], numbers[b])
        })
        .collect();
    List::new(parties, &appointments)
}

/// Each party has the same load: some perfect matchings of two sides.
fn even_handed(random: &mut Random, most: usize) -> Shape {
    let side = random.size(most.min(MOST_PARTIES / 2));
    let degree = random.between(1, most / side);
    matchings(random, side, degree)
}

/// In random order, so many thirds of a list in which each of the parties, on two equal sides, has that load.
pub fn even_handed_part(random: &mut Random, parties: usize, load: usize, thirds: usize) -> List {
    let mut pairs = matchings(random, parties / 2, load).pairs;
    random.shuffle(&mut pairs);
    pairs.truncate((thirds * pairs.len()).div_ceil(3));
    List::new(parties, &pairs)
}

fn matchings(random: &mut Random, side: usize, degree: usize) -> Shape {
    let mut pairs = Vec::new();
    for _ in 0..degree {
        let mut mates: Vec<usize> = (0..side).collect();
        random.shuffle(&mut mates);
        pairs.extend(mates.into_iter().enumerate().map(|(left, mate)| (left, side + mate)));
    }
    Shape { count: 2 * side, pairs }
}

fn two_thirds_full(random: &mut Random, most: usize) -> Shape {
    let mut shape = even_handed(random, most);
    random.shuffle(&mut shape.pairs);
    shape.pairs.truncate((2 * shape.pairs.len()).div_ceil(3));
    shape
}

/// One party meets all others, some of them more than once.
fn star(random: &mut Random, most: usize) -> Shape {
    let most = most.min(512);
    let leaves = random.between(1, most.min(MOST_CELLS / most - 1));
    let pairs = (0..random.between(1, most)).map(|_| (0, 1 + random.below(leaves))).collect();
    Shape { count: 1 + leaves, pairs }
}

/// A few pairs, each many times over.
fn repeats(random: &mut Random, most: usize) -> Shape {
    let left = random.between(1, 4);
    let right = random.between(1, 4);
    let few: Vec<(usize, usize)> =
        (0..random.between(1, 6)).map(|_| (random.below(left), left + random.below(right))).collect();
    let pairs = (0..most).map(|_| few[random.below(few.len())]).collect();
    Shape { count: left + right, pairs }
}

/// Few parties of which some pairs meet often and others not at all, with some idle ones. D is often odd and above 10, which
/// is where the Rust can panic.
fn busy_few(random: &mut Random, most: usize) -> Shape {
    let left = random.between(1, 4);
    let right = random.between(1, 4);
    let few: Vec<(usize, usize)> =
        (0..random.between(2, 7)).map(|_| (random.below(left), left + random.below(right))).collect();
    let mut pairs = Vec::new();
    while pairs.len() < most {
        let copies = random.between(1, 7).min(most - pairs.len());
        let pair = few[random.below(few.len())];
        pairs.extend((0..copies).map(|_| pair));
    }
    Shape { count: left + right + random.below(5), pairs }
}

/// Several parts that no appointment joins.
fn pieces(random: &mut Random, most: usize) -> Shape {
    const PARTS: [Kind; 6] = [even_handed, two_thirds_full, star, repeats, lopsided, path_or_round];
    let mut whole = Shape { count: 0, pairs: Vec::new() };
    while whole.pairs.len() < most && whole.count < 64 {
        let room = (most - whole.pairs.len()).min(1 + most / 2);
        let room = random.size(room);
        let part = PARTS[random.below(PARTS.len())](random, room);
        let base = whole.count;
        whole.pairs.extend(part.pairs.into_iter().map(|(a, b)| (base + a, base + b)));
        whole.count += part.count;
    }
    whole
}

/// Many parties with small loads.
fn sparse(random: &mut Random, most: usize) -> Shape {
    let count = random.between(2, MOST_PARTIES);
    two_sides(random, count, most.min(4 * count))
}

fn two_sides(random: &mut Random, count: usize, most: usize) -> Shape {
    let left = random.between(1, count - 1);
    let pairs = (0..most).map(|_| (random.below(left), left + random.below(count - left))).collect();
    Shape { count, pairs }
}

/// A short side and a long one.
fn lopsided(random: &mut Random, most: usize) -> Shape {
    let left = random.between(1, 4);
    let right = random.between(4, 24);
    let pairs = (0..most).map(|_| (random.below(left), left + random.below(right))).collect();
    Shape { count: left + right, pairs }
}

/// A path, or a round of even length.
fn path_or_round(random: &mut Random, most: usize) -> Shape {
    let count = 2 * random.between(1, (most / 2).clamp(1, 200));
    let mut pairs: Vec<(usize, usize)> = (1..count).map(|at| (at - 1, at)).collect();
    if most > pairs.len() && random.chance(2) {
        pairs.push((count - 1, 0));
    }
    Shape { count, pairs }
}

/// Any two ends at all: with a few appointments often two-sided, with more of them hardly ever.
fn anything(random: &mut Random, most: usize) -> Shape {
    let count = random.between(1, 12);
    let pairs =
        (0..random.between(1, most.min(2 * count))).map(|_| (random.below(count), random.below(count))).collect();
    Shape { count, pairs }
}

fn with_self_pair(random: &mut Random, most: usize) -> Shape {
    let mut shape = two_thirds_full(random, most);
    let party = random.below(shape.count);
    shape.pairs.pop();
    let at = random.between(0, shape.pairs.len());
    shape.pairs.insert(at, (party, party));
    shape
}

fn with_odd_round(random: &mut Random, most: usize) -> Shape {
    let length = 1 + 2 * random.between(1, (most / 4).clamp(1, 6));
    let count = random.between(length, length + 6);
    let rest = two_sides(random, count, most.saturating_sub(length));
    let mut pairs: Vec<(usize, usize)> = (0..length).map(|at| (at, (at + 1) % length)).collect();
    pairs.extend(rest.pairs);
    Shape { count, pairs }
}

fn empty(random: &mut Random, _most: usize) -> Shape {
    Shape { count: random.size(MOST_PARTIES + 1) - 1, pairs: Vec::new() }
}

/// P or A at its limit or one past it.
fn at_a_limit(random: &mut Random) -> List {
    let past = usize::from(random.chance(8));
    if random.chance(2) {
        return with_most_parties(random, MOST_PARTIES + past);
    }
    let mut list = with_most_appointments(random);
    match random.below(8) {
        // one appointment comes elsewhere, so that D×P is past its limit too, or there is an odd round
        0 => {
            let at = random.below(list.ends.len());
            list.ends[at] = random.below(list.parties) as u16;
        }
        1 => list.parties = random.between(1, MOST_PARTIES + 1),
        _ => {}
    }
    list.ends.extend(vec![0; 2 * past]);
    list
}

/// That many parties, with loads of up to 9: D×P leaves room for 8.
fn with_most_parties(random: &mut Random, parties: usize) -> List {
    let side = random.between(1, parties / 2);
    let most_load = if random.chance(8) { 9 } else { 8 };
    let degree = random.between(1, most_load);
    let mut shape = matchings(random, side, degree);
    if random.chance(2) {
        random.shuffle(&mut shape.pairs);
        shape.pairs.truncate(random.between(1, side * degree));
    }
    shape.pairs.truncate(MOST_APPOINTMENTS);
    shape.count = parties;
    number(random, shape, parties)
}

/// 4,096 appointments pass only where every party has load D and D×P is 8,192, so P is a power of two.
fn with_most_appointments(random: &mut Random) -> List {
    let side = 1 << random.below(10);
    let mut shape = matchings(random, side, MOST_APPOINTMENTS / side);
    if random.chance(2) {
        // few different matchings, each many times over
        let different = side * random.between(1, 3).min(shape.pairs.len() / side);
        let again: Vec<(usize, usize)> =
            shape.pairs[..different].iter().copied().cycle().take(MOST_APPOINTMENTS).collect();
        shape.pairs = again;
    }
    number(random, shape, 2 * side)
}

/// A list that one of checks 1 to 6 refuses; often a later one too, so that their order shows.
fn refused(random: &mut Random, most: usize) -> List {
    loop {
        let size = random.size(most);
        let shape = two_thirds_full(random, size);
        let mut list = number(random, shape, MOST_PARTIES);
        for _ in 0..random.between(1, 2) {
            let at = random.below(list.ends.len());
            match random.below(6) {
                0 => list.parties = random.between(MOST_PARTIES, MOST_PARTIES + 2),
                1 => drop(list.ends.pop()),
                2 if most >= MOST_APPOINTMENTS => list.ends.resize(2 * MOST_APPOINTMENTS + 2, 0),
                3 => list.ends[at] = BLANK,
                4 => list.ends[at] = random.between(list.parties, usize::from(BLANK) - 1) as u16,
                _ => list.parties = list.parties.max(MOST_CELLS / list.largest_load().max(8) + 1),
            }
            if list.ends.is_empty() {
                break;
            }
        }
        if list.check().is_err() {
            return list;
        }
    }
}
