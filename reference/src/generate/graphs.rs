//! Permutations and directed graphs.

use super::random::Random;

/// A permutation of the numbers below `count`; entries past them are 0.
pub fn permutation(random: &mut Random, count: usize) -> [u16; 512] {
    let mut step = [0; 512];
    for (i, entry) in step[..count].iter_mut().enumerate() {
        *entry = i as u16;
    }
    random.shuffle(&mut step[..count]);
    step
}

/// The ends of `edges` random edges among `nodes` nodes: without a circle where `acyclic`.
pub fn digraph(
    random: &mut Random,
    nodes: usize,
    edges: usize,
    acyclic: bool,
) -> ([u16; 256], [u16; 256]) {
    let (mut from, mut to) = ([0; 256], [0; 256]);
    let order = permutation(random, nodes);
    for k in 0..edges {
        let (mut i, mut j) = (random.below(nodes), random.below(nodes));
        if acyclic {
            while i == j {
                j = random.below(nodes);
            }
            (i, j) = (i.min(j), i.max(j));
        }
        (from[k], to[k]) = (order[i], order[j]);
    }
    (from, to)
}
