//! Runs the Rust on a list that has passed checks 1 to 6: as published, or with document 01's second search.

use crate::dictmap::DictMap;
use crate::list::List;
use crate::{bipartite_coloring, coloring, second_search};
use petgraph::graph::{EdgeIndex, NodeIndex, UnGraph};
use std::cell::Cell;
use std::panic;

thread_local! {
    static IN_THE_RUST: Cell<bool> = const { Cell::new(false) };
}

#[derive(Clone, Debug, PartialEq, Eq)]
pub enum Outcome {
    /// a slot for each appointment
    Planned(Vec<usize>),
    /// `GraphNotBipartite`
    NotBipartite,
    Panicked,
}

/// The reference of document 01: an undirected graph with P nodes and the appointments added in list order.
pub fn graph_of(list: &List) -> UnGraph<(), ()> {
    let mut graph = UnGraph::default();
    for _ in 0..list.parties {
        graph.add_node(());
    }
    for (first, second) in list.appointments() {
        graph.add_edge(NodeIndex::new(first.into()), NodeIndex::new(second.into()), ());
    }
    graph
}

/// What `two_color` gives, as `bipartite_edge_color` parts it: colour 0 is left, 1 is right, each in order of first colouring.
/// None is `GraphNotBipartite`.
pub fn sides(list: &List) -> Option<(Vec<usize>, Vec<usize>)> {
    let colors = coloring::two_color(&graph_of(list))?;
    let side = |which: u8| colors.iter().filter(|&(_, &color)| color == which).map(|(node, _)| node.index()).collect();
    Some((side(0), side(1)))
}

/// The slots of a coloring, in list order.
pub fn slots_of(list: &List, colors: &DictMap<EdgeIndex, usize>) -> Vec<usize> {
    (0..list.count()).map(|position| colors[&EdgeIndex::new(position)]).collect()
}

/// bipartite_coloring.rs as it stands in docs/src.
pub fn published(list: &List) -> Outcome {
    let graph = graph_of(list);
    outcome(list, || bipartite_coloring::bipartite_edge_color(&graph).ok())
}

/// The same with second-search.diff applied.
pub fn with_second_search(list: &List) -> Outcome {
    let graph = graph_of(list);
    outcome(list, || second_search::bipartite_edge_color(&graph).ok())
}

fn outcome(list: &List, color: impl FnOnce() -> Option<DictMap<EdgeIndex, usize>>) -> Outcome {
    IN_THE_RUST.set(true);
    let result = panic::catch_unwind(panic::AssertUnwindSafe(color));
    IN_THE_RUST.set(false);
    match result {
        Ok(Some(colors)) => Outcome::Planned(slots_of(list, &colors)),
        Ok(None) => Outcome::NotBipartite,
        Err(_) => Outcome::Panicked,
    }
}

/// Keeps the panics of the Rust, which are answers here, from being printed. Any other is printed as usual.
pub fn silence_panics() {
    let usual = panic::take_hook();
    panic::set_hook(Box::new(move |info| {
        if !IN_THE_RUST.get() {
            usual(info);
        }
    }));
}
