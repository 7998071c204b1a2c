//! Longest paths and reachability in a directed graph.

/// Most nodes and most edges of a graph here: bars and wires, or faces and wires.
pub const MAX_NODES: usize = 256;
pub const MAX_ARCS: usize = 256;

const NONE: u16 = u16::MAX;

/// The edges that leave each node, as linked lists.
struct Outgoing {
    first: [u16; MAX_NODES],
    next: [u16; MAX_ARCS],
}

impl Outgoing {
    fn new(edges: usize, from: &[u16; MAX_ARCS]) -> Outgoing {
        let mut lists = Outgoing { first: [NONE; MAX_NODES], next: [NONE; MAX_ARCS] };
        for edge in 0..edges {
            let node = usize::from(from[edge]);
            lists.next[edge] = lists.first[node];
            lists.first[node] = edge as u16;
        }
        lists
    }

    fn of(&self, node: usize) -> impl Iterator<Item = usize> + '_ {
        let mut edge = self.first[node];
        std::iter::from_fn(move || {
            let current = (edge != NONE).then_some(usize::from(edge))?;
            edge = self.next[current];
            Some(current)
        })
    }
}

/// The level of a node is the most edges on any directed path that ends at it; `None` where
/// there is a directed circle. Entries past the last node are 0. (Kahn's topological order.)
///
/// At most 256 nodes and 256 edges, and every end of an edge below `nodes`.
pub fn levels(
    nodes: usize,
    edges: usize,
    from: &[u16; MAX_ARCS],
    to: &[u16; MAX_ARCS],
) -> Option<[u16; MAX_NODES]> {
    let outgoing = Outgoing::new(edges, from);
    let mut waiting = [0u16; MAX_NODES];
    for edge in 0..edges {
        waiting[usize::from(to[edge])] += 1;
    }
    let mut order = [0u16; MAX_NODES];
    let mut ordered = 0;
    for node in 0..nodes {
        if waiting[node] == 0 {
            order[ordered] = node as u16;
            ordered += 1;
        }
    }
    let mut level = [0u16; MAX_NODES];
    let mut done = 0;
    while done < ordered {
        let node = usize::from(order[done]);
        done += 1;
        for edge in outgoing.of(node) {
            let target = usize::from(to[edge]);
            level[target] = level[target].max(level[node] + 1);
            waiting[target] -= 1;
            if waiting[target] == 0 {
                order[ordered] = target as u16;
                ordered += 1;
            }
        }
    }
    (ordered == nodes).then_some(level)
}

/// Whether "a directed path leads from" `start` to `goal` (also where they are one node).
pub fn reaches(
    edges: usize,
    from: &[u16; MAX_ARCS],
    to: &[u16; MAX_ARCS],
    start: usize,
    goal: usize,
) -> bool {
    let outgoing = Outgoing::new(edges, from);
    let mut reached = [false; MAX_NODES];
    let mut queue = [0u16; MAX_NODES];
    let mut queued = 1;
    let mut done = 0;
    queue[0] = start as u16;
    reached[start] = true;
    while done < queued && !reached[goal] {
        let node = usize::from(queue[done]);
        done += 1;
        for edge in outgoing.of(node) {
            let target = usize::from(to[edge]);
            if !reached[target] {
                reached[target] = true;
                queue[queued] = target as u16;
                queued += 1;
            }
        }
    }
    reached[goal]
}

#[cfg(test)]
mod tests {
    use super::*;

    fn arcs(pairs: &[(u16, u16)]) -> ([u16; 256], [u16; 256]) {
        let (mut from, mut to) = ([0; 256], [0; 256]);
        for (i, &pair) in pairs.iter().enumerate() {
            (from[i], to[i]) = pair;
        }
        (from, to)
    }

    #[test]
    fn longest_paths() {
        let (from, to) = arcs(&[(0, 3), (3, 1), (0, 1), (1, 2), (0, 2), (0, 1)]);
        let level = levels(5, 6, &from, &to).expect("no circle");
        assert_eq!(level[..6], [0, 2, 3, 1, 0, 0]);
        assert_eq!(levels(0, 0, &from, &to), Some([0; 256]));
    }

    #[test]
    fn circles() {
        let (from, to) = arcs(&[(0, 1), (1, 2), (2, 1)]);
        assert_eq!(levels(3, 3, &from, &to), None);
        let (from, to) = arcs(&[(0, 0)]);
        assert_eq!(levels(1, 1, &from, &to), None);
    }

    #[test]
    fn a_path_of_256_nodes() {
        let pairs: Vec<(u16, u16)> = (0..255).map(|i| (255 - i, 254 - i)).collect();
        let (from, to) = arcs(&pairs);
        let level = levels(256, 255, &from, &to).expect("no circle");
        assert!((0..256).all(|node| level[node] as usize == 255 - node));
        assert!(reaches(255, &from, &to, 255, 0) && !reaches(255, &from, &to, 0, 255));
        assert!(reaches(255, &from, &to, 7, 7));
    }
}
