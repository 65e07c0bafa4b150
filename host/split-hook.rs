
// From here on: appended by the host's build to a copy of bipartite_coloring.rs, since the split above is private.

/// A pair: its ends, copies, and whether it is bad.
pub type Pair = (usize, usize, usize, bool);

/// One split of a graph whose left and right nodes are given and whose pairs are added in order: the pairs of both halves, in
/// the order of their numbers.
pub fn split(left: &[usize], right: &[usize], degree: usize, pairs: &[Pair]) -> [Vec<Pair>; 2] {
    let mut g = RegularBipartiteMultiGraph::new();
    for _ in 0..left.len() + right.len() {
        g.graph.add_node(());
    }
    g.l_nodes = left.iter().map(|&node| NodeIndex::new(node)).collect();
    g.r_nodes = right.iter().map(|&node| NodeIndex::new(node)).collect();
    g.degree = degree;
    for &(first, second, copies, bad) in pairs {
        g.add_edge(NodeIndex::new(first), NodeIndex::new(second), copies, bad);
    }
    let (h1, h2) = rbmg_split_into_two(&g);
    [h1, h2].map(|half| {
        let pair = |e: petgraph::stable_graph::EdgeReference<EdgeData>| {
            (e.source().index(), e.target().index(), e.weight().multiplicity, e.weight().bad)
        };
        half.graph.edge_references().map(pair).collect()
    })
}
