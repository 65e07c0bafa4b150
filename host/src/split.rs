//! Compares our split with the Rust's `rbmg_split_into_two` on random regular graphs of even degree: the same pairs in both
//! halves, in the order of their numbers, with the same ends, copies and flags.

use crate::lent::Lent;
use crate::random::Random;
use crate::split_opened::{self, Pair};
use crate::steps;
use std::collections::{HashMap, HashSet};

/// Entries that a graph may have, so that a run stays short.
const MOST_PAIRS: usize = 20_000;

/// A bipartite graph on the parties 0 to 2n-1 in which every party has the same even degree.
struct Graph {
    left: Vec<usize>,
    right: Vec<usize>,
    degree: usize,
    pairs: Vec<Pair>,
}

#[derive(Default)]
struct Counts {
    graphs: usize,
    most_parties: usize,
    most_pairs: usize,
    most_degree: usize,
    with_rest: usize,
    with_empty_pairs: usize,
    with_bad_pairs: usize,
}

/// Compares on COUNT random graphs. An error names the first that differs.
pub fn compare(count: usize, seed: u64) -> Result<(), String> {
    let mut random = Random::new(seed);
    let mut counts = Counts::default();
    for _ in 0..count {
        let graph = Graph::random(&mut random);
        counts.take(&graph);
        let expected = split_opened::split(&graph.left, &graph.right, graph.degree, &graph.pairs);
        let answered = ask(&graph, &mut random).map_err(|error| format!("{}\n{error}", graph.text()))?;
        if expected != answered {
            return Err(format!("{}\nexpected {expected:?}\nanswered {answered:?}", graph.text()));
        }
    }
    counts.print();
    println!("no difference");
    Ok(())
}

/// Our halves. The graph's words stand below the mark, in either order of table and graph, among noise; pair numbers are
/// shuffled and have gaps, and the bad pairs are those with the largest numbers.
fn ask(graph: &Graph, random: &mut Random) -> Result<[Vec<Pair>; 2], String> {
    let n = graph.left.len();
    let width = graph.most_pairs_of_a_party().max(2) + random.below(3);
    let numbers = graph.numbers(random);
    let first_bad = graph.pairs.iter().zip(&numbers).filter(|(pair, _)| pair.3).map(|(_, &number)| number).min();
    let table_words = 2 * (numbers.iter().max().map_or(0, |most| most + 1));
    let graph_words = 2 + 2 * graph.pairs.len() + 1;
    let table_first = random.chance(2);
    let gap = random.below(8);
    let (ends, g) = if table_first { (gap, gap + table_words) } else { (gap + graph_words, gap) };
    let used = gap + table_words + graph_words + random.below(8);
    let lent = used + 16 * n * (width + 1);

    let mut scratch = Lent::new(lent, random, |word| word as u32);
    scratch.fill(lent, random);
    let words = scratch.lend(lent);
    words[g] = g as u32;
    words[g + 1] = graph.pairs.len() as u32;
    for (place, (&(first, second, copies, _), &number)) in graph.pairs.iter().zip(&numbers).enumerate() {
        words[ends + 2 * number] = first as u32;
        words[ends + 2 * number + 1] = second as u32;
        words[g + 2 + 2 * place] = number as u32;
        words[g + 3 + 2 * place] = copies as u32;
    }

    let below = words[..used].to_vec();
    // SAFETY: the graph is regular of even degree, its words lie below the mark, and there is the room that the split asks for.
    let mark = unsafe { steps::split(words, used, ends, g, n, width) };
    let half = 2 * n * (width + 1);
    if mark != used + 2 * half {
        return Err(format!("the mark is {mark}, and was {used}; a half takes {half} words"));
    }
    if scratch.held(used) != below || scratch.written_from(lent).is_some() {
        return Err("words that must stay were written".to_string());
    }
    let words = scratch.held(lent);
    let known: HashSet<usize> = numbers.into_iter().collect();
    let half_at = |base: usize| {
        if words[base] as usize != base || words[base + 1] as usize > graph.pairs.len() {
            return Err(format!("the half at {base} begins {} {}", words[base], words[base + 1]));
        }
        let entries = &words[base + 2..][..2 * words[base + 1] as usize];
        let pair = |entry: &[u32]| {
            let number = entry[0] as usize;
            if !known.contains(&number) {
                return Err(format!("the half at {base} has a pair {number}"));
            }
            let end = |which: usize| words[ends + 2 * number + which] as usize;
            Ok((end(0), end(1), entry[1] as usize, first_bad.is_some_and(|bad| number >= bad)))
        };
        entries.chunks(2).map(pair).collect::<Result<Vec<Pair>, String>>()
    };
    Ok([half_at(used)?, half_at(used + half)?])
}

impl Graph {
    /// Some permutations of one side against the other, each with its copies: few or many, once or often over.
    fn random(random: &mut Random) -> Graph {
        let large = random.chance(8);
        let n = random.size(if large { 1024 } else { 40 });
        let mut parties: Vec<usize> = (0..2 * n).collect();
        if random.chance(2) {
            random.shuffle(&mut parties);
        }
        let (left, right) = parties.split_at(n);
        let most = (MOST_PAIRS / n).clamp(1, 24);
        let mut copies: Vec<usize> = (0..random.between(1, most))
            .map(|_| match random.below(4) {
                0 => random.size(4096),
                1 => random.between(1, 4),
                _ => 1,
            })
            .collect();
        if copies.iter().sum::<usize>() % 2 == 1 {
            copies[0] += 1;
        }
        let mut graph =
            Graph { left: left.to_vec(), right: right.to_vec(), degree: copies.iter().sum(), pairs: Vec::new() };
        graph.add_permutations(&copies, random);
        graph
    }

    fn add_permutations(&mut self, copies: &[usize], random: &mut Random) {
        let n = self.left.len();
        // in a narrow graph the mates are near, so that pairs come again and the rest has many short cycles
        let reach = if random.chance(2) { n } else { n.min(4) };
        let turned = random.below(3);
        let mut added: Vec<Pair> = Vec::new();
        for &copies in copies {
            let mut mates: Vec<usize> = (0..n).collect();
            for part in mates.chunks_mut(reach) {
                random.shuffle(part);
            }
            for (at, mate) in mates.into_iter().enumerate() {
                let (a, b) = (self.left[at], self.right[mate]);
                let turn = if turned < 2 { turned == 1 } else { random.chance(2) };
                let (first, second) = if turn { (b, a) } else { (a, b) };
                added.push((first, second, copies, false));
            }
        }
        if random.chance(2) {
            random.shuffle(&mut added);
        }
        // a pair of no copies is kept
        if random.chance(4) {
            for _ in 0..random.between(1, n) {
                let pair = (self.left[random.below(n)], self.right[random.below(n)], 0, false);
                added.insert(random.between(0, added.len()), pair);
            }
        }
        // adding to a pair, either way round, adds copies and keeps its first orientation
        let mut known: HashMap<(usize, usize), usize> = HashMap::new();
        for (first, second, copies, bad) in added {
            let key = (first.min(second), first.max(second));
            let place = *known.entry(key).or_insert(self.pairs.len());
            if place == self.pairs.len() {
                self.pairs.push((first, second, 0, bad));
            }
            self.pairs[place].2 += copies;
        }
        if random.chance(2) {
            let one_in = random.between(1, 8);
            for pair in &mut self.pairs {
                pair.3 = random.chance(one_in);
            }
        }
    }

    /// A number for each pair: shuffled, with gaps, those of the bad ones above the others.
    fn numbers(&self, random: &mut Random) -> Vec<usize> {
        let mut numbers = vec![0; self.pairs.len()];
        let mut next = 0;
        for bad in [false, true] {
            let mut places: Vec<usize> = (0..self.pairs.len()).filter(|&place| self.pairs[place].3 == bad).collect();
            random.shuffle(&mut places);
            for place in places {
                next += if random.chance(8) { random.below(3) } else { 0 };
                numbers[place] = next;
                next += 1;
            }
        }
        numbers
    }

    fn most_pairs_of_a_party(&self) -> usize {
        let mut counts = vec![0; 2 * self.left.len()];
        for &(first, second, _, _) in &self.pairs {
            counts[first] += 1;
            counts[second] += 1;
        }
        counts.into_iter().max().unwrap_or(0)
    }

    fn text(&self) -> String {
        format!("left {:?}\nright {:?}\npairs {:?}", self.left, self.right, self.pairs)
    }
}

impl Counts {
    fn take(&mut self, graph: &Graph) {
        let some = |has: fn(&Pair) -> bool| usize::from(graph.pairs.iter().any(has));
        self.graphs += 1;
        self.most_parties = self.most_parties.max(graph.left.len());
        self.most_pairs = self.most_pairs.max(graph.pairs.len());
        self.most_degree = self.most_degree.max(graph.degree);
        self.with_rest += some(|pair| pair.2 % 2 == 1);
        self.with_empty_pairs += some(|pair| pair.2 == 0);
        self.with_bad_pairs += some(|pair| pair.3);
    }

    fn print(&self) {
        println!(
            "{} graphs of up to {} parties a side, {} pairs and degree {}, of which\n\
             {:6} with pairs of odd copies\n\
             {:6} with pairs of no copies\n\
             {:6} with bad pairs",
            self.graphs,
            self.most_parties,
            self.most_pairs,
            self.most_degree,
            self.with_rest,
            self.with_empty_pairs,
            self.with_bad_pairs
        );
    }
}
