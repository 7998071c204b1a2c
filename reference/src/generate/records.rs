//! Records that aren't sound.

use super::edits::any_number;
use super::random::Random;
use super::sheets::{extreme_sheets, mirrored, random_sheet};
use crate::sheet::{Sheet, MAX_EDGES};
use crate::sound::survey;

/// A record of the given wires and rings of wire numbers, with no check.
pub fn from_rings(wires: &[(usize, usize)], rings: &[Vec<usize>]) -> Sheet {
    let mut sheet = Sheet::blank(rings.len(), wires.len());
    for (k, &(tail, head)) in wires.iter().enumerate() {
        sheet.tails[k] = tail as u16;
        sheet.heads[k] = head as u16;
    }
    for (v, ring) in rings.iter().enumerate() {
        for (i, &k) in ring.iter().enumerate() {
            let next = ring[(i + 1) % ring.len()];
            let dart = |k: usize| 2 * k + usize::from(wires[k].0 != v);
            sheet.nexts[dart(k)] = dart(next) as u16;
        }
    }
    sheet
}

/// "A 4 by 4 grid wrapped round a torus": bar 4r + c in row r and column c; wire 2v leads from
/// bar v to the right, wire 2v + 1 down. Every row and every column is a directed circle.
pub fn torus() -> Sheet {
    torus_with(|_, _| true)
}

/// The same grid with each wire directed by an order of the bars in which bar 0 comes first, bar
/// 1 last, and every other bar has a neighbour before it and one after it: the count of faces is
/// all that is wrong with it.
pub fn directed_torus() -> Sheet {
    torus_with(|tail, head| {
        let place = |v: usize| {
            let (row, column) = (v / 4, v % 4);
            let turned = if column == 1 { (row + 3) % 4 } else { row };
            4 * ((4 - column) % 4) + turned
        };
        place(tail) < place(head)
    })
}

fn torus_with(forward: impl Fn(usize, usize) -> bool) -> Sheet {
    let bar = |row: usize, column: usize| 4 * (row % 4) + column % 4;
    let mut wires = Vec::new();
    let mut rings = Vec::new();
    for (row, column) in (0..16).map(|v| (v / 4, v % 4)) {
        let v = bar(row, column);
        for neighbour in [bar(row, column + 1), bar(row + 1, column)] {
            let wire = if forward(v, neighbour) { (v, neighbour) } else { (neighbour, v) };
            wires.push(wire);
        }
        let (up, left) = (2 * bar(row + 3, column) + 1, 2 * bar(row, column + 3));
        rings.push(vec![up, 2 * v, 2 * v + 1, left]);
    }
    from_rings(&wires, &rings)
}

/// Wire k the other way, both ends at their places in the rings.
pub fn reverse_edge(sheet: &Sheet, k: usize) -> Sheet {
    sheet.turned(|j| j == k)
}

/// Two neighbours in a ring of three or more change places.
pub fn swap_neighbours(random: &mut Random, sheet: &Sheet) -> Sheet {
    let mut new = *sheet;
    let first = random.below(2 * sheet.edges);
    let second = sheet.next(first);
    let third = sheet.next(second);
    if third != first {
        new.nexts[first] = third as u16;
        new.nexts[second] = sheet.nexts[third];
        new.nexts[third] = second as u16;
    }
    new
}

/// One wire more, beside wire k and against its direction: a circle.
fn run_against(random: &mut Random, sheet: &Sheet) -> Sheet {
    let mut new = *sheet;
    let m = sheet.edges;
    let k = random.below(m);
    if m < MAX_EDGES {
        // Just after wire k at its tail, just before it at its head.
        let (at_tail, at_head) = (2 * k, 2 * k + 1);
        let before = (0..2 * m).find(|&d| sheet.next(d) == at_head).unwrap_or(at_head);
        new.tails[m] = sheet.heads[k];
        new.heads[m] = sheet.tails[k];
        new.nexts[2 * m + 1] = sheet.nexts[at_tail];
        new.nexts[at_tail] = (2 * m + 1) as u16;
        new.nexts[2 * m] = sheet.nexts[before];
        new.nexts[before] = (2 * m) as u16;
        new.edges = m + 1;
    }
    new
}

/// A sheet that meets every rule that load checks line by line, and that it refuses with the given
/// number (5 to 8) after the last line, where one is found.
pub fn refused_sheet(random: &mut Random, sheet: &Sheet, refusal: u8) -> Option<Sheet> {
    (0..40).find_map(|_| {
        let k = random.below(sheet.edges);
        let new = match refusal {
            5 => reverse_edge(sheet, 0),
            6 => run_against(random, sheet),
            7 => reverse_edge(sheet, k),
            _ => swap_neighbours(random, sheet),
        };
        (survey(&new).err() == Some(refusal)).then_some(new)
    })
}

/// A sound sheet with random damage to one place; now and then it is sound still.
pub fn damaged_record(random: &mut Random, sheet: &Sheet) -> Sheet {
    match random.below(8) {
        0 => mirrored(sheet),
        1 => split_ring(random, sheet),
        2..=3 => {
            let refusal = random.between(5, 8) as u8;
            refused_sheet(random, sheet, refusal).unwrap_or(*sheet)
        }
        _ => damaged_entry(random, sheet),
    }
}

/// One entry of the record changed. The counts must be within limits.
fn damaged_entry(random: &mut Random, sheet: &Sheet) -> Sheet {
    let mut new = *sheet;
    let (n, m) = (sheet.vertices, sheet.edges);
    let (k, d) = (random.below(m), random.below(2 * m));
    match random.below(15) {
        0 => new.vertices = any_number(random, n),
        1 => new.edges = any_number(random, m),
        2 => new.vertices = random.pick(&[0, 1, n - 1, n + 1, 129, 65_535, usize::MAX]),
        3 => new.edges = random.pick(&[0, 1, m - 1, m + 1, 257, 65_535, usize::MAX]),
        4 => new.tails[k] = any_number(random, n) as u16,
        5 => new.heads[k] = any_number(random, n) as u16,
        6 => new.nexts[d] = any_number(random, 2 * m) as u16,
        7 => new.tails[k] = sheet.heads[k],
        8 => new.nexts[d] = random.below(2 * m) as u16,
        9 => new.tails[random.between(m.min(255), 255)] = any_number(random, n) as u16,
        10 => new.heads[random.between(m.min(255), 255)] = any_number(random, n) as u16,
        11 => new.nexts[random.between((2 * m).min(511), 511)] = any_number(random, m) as u16,
        12 => new.tails[0] = random.below(n) as u16,
        13 => new.heads[0] = random.below(n) as u16,
        _ => new.nexts.swap(d, random.below(2 * m)),
    }
    new
}

/// Two ends of one bar exchange their next-ends: two rings at one bar.
fn split_ring(random: &mut Random, sheet: &Sheet) -> Sheet {
    let mut new = *sheet;
    let first = random.below(2 * sheet.edges);
    let mut second = sheet.next(first);
    for _ in 0..random.below(4) {
        second = sheet.next(second);
    }
    new.nexts.swap(first, second);
    new
}

/// An endless sequence of records, sound and not.
pub struct Records {
    random: Random,
    extremes: Vec<Sheet>,
}

impl Records {
    pub fn new(seed: u64) -> Records {
        let mut random = Random::new(seed);
        let mut extremes = extreme_sheets(&mut random);
        extremes.push(torus());
        extremes.push(directed_torus());
        Records { random, extremes }
    }
}

impl Iterator for Records {
    type Item = Sheet;

    fn next(&mut self) -> Option<Sheet> {
        let random = &mut self.random;
        let sheet =
            if random.one_in(8) { random.pick(&self.extremes) } else { random_sheet(random) };
        if random.one_in(8) {
            return Some(sheet);
        }
        let damaged = damaged_record(random, &sheet);
        if random.one_in(8) && (damaged.vertices, damaged.edges) == (sheet.vertices, sheet.edges) {
            return Some(damaged_entry(random, &damaged));
        }
        Some(damaged)
    }
}
