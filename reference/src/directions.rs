//! Directions for links (C-14).
//!
//! The links are a sheet whose directions mean nothing yet: link k joins the two bars of wire k, of
//! which the text names the tail first.

use crate::load::load_links;
use crate::sheet::{Answer, Sheet, MAX_VERTICES};
use crate::sound::{is_sound, survey};

/// What the second load answers after the last line. "Wire 0 must join bars 0 and 1 in that text
/// order, else 5." "Where no such choice exists it answers 19, in the place of 6 and 7, before 8."
pub fn directed(links: &Sheet) -> Result<Sheet, u8> {
    if (links.tails[0], links.heads[0]) != (0, 1) {
        return Err(5);
    }
    let neighbours = neighbours(links);
    if !has_no_cut_vertex(links.vertices, &neighbours) {
        return Err(19);
    }
    let place = places(&upward_order(&neighbours));
    let falls = |k: usize| place[usize::from(links.tails[k])] > place[usize::from(links.heads[k])];
    let sheet = links.turned(falls);
    match survey(&sheet) {
        Ok(_) => Ok(sheet),
        Err(8) => Err(8),
        Err(refusal) => panic!("the choice of directions is refused {refusal}: {sheet:?}"),
    }
}

/// A set of bars: bit v for bar v.
type Bars = u128;

/// The bars that a link joins to each bar.
fn neighbours(links: &Sheet) -> [Bars; MAX_VERTICES] {
    let mut neighbours = [0; MAX_VERTICES];
    for k in 0..links.edges {
        let (a, b) = (usize::from(links.tails[k]), usize::from(links.heads[k]));
        neighbours[a] |= 1 << b;
        neighbours[b] |= 1 << a;
    }
    neighbours
}

/// The numbers in a set, rising.
fn members(mut bars: Bars) -> impl Iterator<Item = usize> {
    std::iter::from_fn(move || {
        let lowest = (bars != 0).then(|| bars.trailing_zeros() as usize)?;
        bars &= bars - 1;
        Some(lowest)
    })
}

/// Whether all bars hang together, and still do where any one of them is taken out. Where a link joins
/// bars 0 and 1, "some choice of directions makes the rules on circles and on bars 0 and 1 hold"
/// exactly then:
/// - Let the bars fall into several parts, after bar v is taken out or as they are. Bars 0 and 1 are
///   joined, so one of the parts has neither. Under such a choice the wires lead from each bar of that
///   part on to bar 1 and back to bar 0: there is no circle, and no other bar is an end. Both ways
///   leave the part, so there is a bar v, and both go by it. They make a circle.
/// - Where the bars hang together in this way, `upward_order` finds a choice.
fn has_no_cut_vertex(vertices: usize, neighbours: &[Bars; MAX_VERTICES]) -> bool {
    let all = Bars::MAX >> (MAX_VERTICES - vertices);
    is_connected(all, neighbours)
        && (0..vertices).all(|v| is_connected(all & !(1 << v), neighbours))
}

/// Whether each of these bars is reached from the lowest of them through them alone.
fn is_connected(bars: Bars, neighbours: &[Bars; MAX_VERTICES]) -> bool {
    let mut reached: Bars = 1 << bars.trailing_zeros();
    loop {
        let onward = members(reached).fold(reached, |sum, v| sum | (neighbours[v] & bars));
        if onward == reached {
            return reached == bars;
        }
        reached = onward;
    }
}

/// A depth-first search from bar 0.
struct Search {
    neighbours: [Bars; MAX_VERTICES],
    /// The bars in the order in which the search comes to them.
    found: Vec<usize>,
    /// Of each bar found: its place in that order, the bar from which the search came to it, and its
    /// low point, which is the first place joined to a bar found from it on, itself included.
    number: [Option<usize>; MAX_VERTICES],
    parent: [usize; MAX_VERTICES],
    low: [usize; MAX_VERTICES],
}

impl Search {
    fn new(neighbours: &[Bars; MAX_VERTICES]) -> Search {
        let mut search = Search {
            neighbours: *neighbours,
            found: Vec::new(),
            number: [None; MAX_VERTICES],
            parent: [0; MAX_VERTICES],
            low: [0; MAX_VERTICES],
        };
        search.visit(0);
        search
    }

    fn visit(&mut self, v: usize) {
        let number = self.found.len();
        self.found.push(v);
        self.number[v] = Some(number);
        self.low[v] = number;
        for w in members(self.neighbours[v]) {
            let low = self.number[w].unwrap_or_else(|| {
                self.parent[w] = v;
                self.visit(w);
                self.low[w]
            });
            self.low[v] = self.low[v].min(low);
        }
    }
}

/// An order of the bars that begins with bar 0 and ends with bar 1, in which every other bar has a
/// neighbour before it and one after it: the st-order of Even and Tarjan, made in one pass as in
/// Tarjan's "Two streamlined depth-first search algorithms" (1986). Links that rise in such an order
/// have no circle, and their rule on bars 0 and 1 holds.
///
/// The search goes from bar 0 to bar 1 at once, its neighbour of lowest number. Each later bar comes
/// just beside the bar from which the search came to it, on the side where its low point lies:
/// `before` tells of each bar whether it lies before the bar last put beside it.
fn upward_order(neighbours: &[Bars; MAX_VERTICES]) -> Vec<usize> {
    let search = Search::new(neighbours);
    let mut before = [true; MAX_VERTICES];
    let mut order = vec![0, 1];
    for &v in &search.found[2..] {
        let parent = search.parent[v];
        let low_is_before = before[search.found[search.low[v]]];
        let beside = order.iter().position(|&w| w == parent).expect("found before");
        order.insert(if low_is_before { beside } else { beside + 1 }, v);
        before[parent] = !low_is_before;
    }
    order
}

/// The place of each bar in an order.
fn places(order: &[usize]) -> [usize; MAX_VERTICES] {
    let mut places = [0; MAX_VERTICES];
    for (place, &v) in order.iter().enumerate() {
        places[v] = place;
    }
    places
}

/// Whether two sheets have the same links and rings: they are one sheet but for directions. For
/// records that meet the rules on counts, wires and rings.
pub fn same_links(one: &Sheet, other: &Sheet) -> bool {
    let differs = |k: usize| (one.tails[k], one.heads[k]) != (other.tails[k], other.heads[k]);
    one.edges == other.edges && one.turned(differs) == *other
}

/// Whether another implementation may answer so to the second load of this text. "Which choice it
/// makes is free", all else is not: "The links and rings of the sheet it returns are those of the
/// text."
pub fn permitted(text: &[u8], present: &Sheet, answer: &(Answer, Sheet, usize)) -> bool {
    let own = load_links(text, present);
    if answer.0.is_err() {
        return *answer == own;
    }
    (own.0, own.2) == (Ok(()), answer.2) && is_sound(&answer.1) && same_links(&answer.1, &own.1)
}
