//! Walks and their limits as the paper defines them, told from the whole list of visits.

use crate::case::Graph;

/// "A walk starts at node 0, follows edges, and may stop anywhere; the empty walk counts."
pub fn is_walk(graph: &Graph, visits: &[usize]) -> bool {
    let starts = visits.first().is_none_or(|&first| first == 0);
    starts && visits.windows(2).all(|pair| graph.edges.contains(&(pair[0], pair[1])))
}

/// "A stay in a loop is a longest run of consecutive visits to its nodes. A walk keeps the limits if in each stay the
/// header is visited at most B times, the arriving visit included." And "over a whole walk its header is visited at most W
/// times": "Walks in demand 3 keep W too."
pub fn keeps_limits(graph: &Graph, visits: &[usize]) -> bool {
    graph.loops.iter().all(|l| {
        let of_header = |visits: &[usize]| visits.iter().filter(|&&node| node == l.header()).count() as u128;
        let mut stays = visits.split(|node| !l.nodes().contains(node));
        stays.all(|stay| of_header(stay) <= l.bound) && l.visits.is_none_or(|most| of_header(visits) <= most)
    })
}
