//! Sound sheets.

use super::edits::run_in_one_face;
use super::random::Random;
use crate::edit::{apply, Edit};
use crate::sheet::{Sheet, MAX_DARTS, MAX_EDGES, MAX_VERTICES};

/// A sheet of the given counts (2 <= vertices <= edges), grown from the fresh sheet by random
/// accepted edits of all four kinds.
pub fn grown(random: &mut Random, vertices: usize, edges: usize) -> Sheet {
    extended(random, &Sheet::fresh(), vertices, edges)
}

/// The same from another sheet, of no more vertices and no more edges over vertices.
pub fn extended(random: &mut Random, sheet: &Sheet, vertices: usize, edges: usize) -> Sheet {
    let deep = random.one_in(4);
    let mut sheet = *sheet;
    while sheet.vertices != vertices || sheet.edges != edges {
        let edit = growth_step(random, &sheet, vertices, edges, deep);
        sheet = apply(&sheet, edit).1;
    }
    sheet
}

/// An edit towards the counts wanted, or now and then one that takes something out.
fn growth_step(
    random: &mut Random,
    sheet: &Sheet,
    vertices: usize,
    edges: usize,
    deep: bool,
) -> Edit {
    let (n, m) = (sheet.vertices, sheet.edges);
    let missing_vertices = vertices - n;
    let missing_runs = (edges - vertices) - (m - n);
    if random.one_in(8) {
        if random.one_in(2) && n > 2 {
            return Edit::Off(random.between(2, n - 1));
        }
        return Edit::Out(random.between(1, m - 1));
    }
    if random.below(missing_vertices + missing_runs) < missing_vertices {
        Edit::In(if deep { m - 1 } else { random.between(1, m - 1) })
    } else {
        run_in_one_face(random, sheet)
    }
}

/// Counts of all sizes: mostly small, some full.
pub fn random_counts(random: &mut Random) -> (usize, usize) {
    let most = random.pick(&[4, 4, 8, 8, 16, 40, MAX_VERTICES]);
    let vertices = random.between(2, most);
    let edges = (vertices + random.below(most + 1)).min(MAX_EDGES);
    match random.below(24) {
        0 => (MAX_VERTICES, MAX_EDGES),
        1 => (MAX_VERTICES, random.between(MAX_VERTICES, MAX_EDGES)),
        2 => (vertices, MAX_EDGES),
        _ => (vertices, edges),
    }
}

/// A sound sheet of any size, its bars and wires now and then renumbered.
pub fn random_sheet(random: &mut Random) -> Sheet {
    let (vertices, edges) = random_counts(random);
    let sheet = grown(random, vertices, edges);
    if random.one_in(2) {
        renumbered(random, &sheet)
    } else {
        sheet
    }
}

/// Two bars and parallel wires.
pub fn parallel(edges: usize) -> Sheet {
    let mut sheet = Sheet::blank(2, edges);
    for k in 0..edges {
        sheet.heads[k] = 1;
        sheet.nexts[2 * k] = (2 * ((k + 1) % edges)) as u16;
        sheet.nexts[2 * k + 1] = (2 * ((k + edges - 1) % edges) + 1) as u16;
    }
    sheet
}

/// Wire 0, and beside it one long path through all the other bars in number order.
pub fn path(vertices: usize) -> Sheet {
    let mut sheet = Sheet::fresh();
    while sheet.vertices < vertices {
        sheet = apply(&sheet, Edit::In(sheet.edges - 1)).1;
    }
    sheet
}

/// The same sheet with new numbers: bar v becomes `vertex_numbers[v]`, wire k `edge_numbers[k]`.
pub fn renumber(sheet: &Sheet, vertex_numbers: &[usize], edge_numbers: &[usize]) -> Sheet {
    let mut new = Sheet::blank(sheet.vertices, sheet.edges);
    let dart_number = |dart: usize| 2 * edge_numbers[dart / 2] + dart % 2;
    for k in 0..sheet.edges {
        let number = edge_numbers[k];
        new.tails[number] = vertex_numbers[usize::from(sheet.tails[k])] as u16;
        new.heads[number] = vertex_numbers[usize::from(sheet.heads[k])] as u16;
    }
    for dart in 0..2 * sheet.edges {
        new.nexts[dart_number(dart)] = dart_number(sheet.next(dart)) as u16;
    }
    new
}

/// Random new numbers; bars 0 and 1 and wire 0 keep theirs.
pub fn renumbered(random: &mut Random, sheet: &Sheet) -> Sheet {
    let mut vertex_numbers: Vec<usize> = (0..sheet.vertices).collect();
    let mut edge_numbers: Vec<usize> = (0..sheet.edges).collect();
    random.shuffle(&mut vertex_numbers[2..]);
    random.shuffle(&mut edge_numbers[1..]);
    renumber(sheet, &vertex_numbers, &edge_numbers)
}

/// All numbers backward but those of bars 0 and 1 and wire 0.
pub fn backward(sheet: &Sheet) -> Sheet {
    let mut vertex_numbers: Vec<usize> = (0..sheet.vertices).collect();
    let mut edge_numbers: Vec<usize> = (0..sheet.edges).collect();
    vertex_numbers[2..].reverse();
    edge_numbers[1..].reverse();
    renumber(sheet, &vertex_numbers, &edge_numbers)
}

/// Every ring the other way round: the mirror image, sound where the sheet is.
pub fn mirrored(sheet: &Sheet) -> Sheet {
    let mut new = *sheet;
    new.nexts = [0; MAX_DARTS];
    for dart in 0..2 * sheet.edges {
        new.nexts[sheet.next(dart)] = dart as u16;
    }
    new
}

/// Sheets at the limits.
pub fn extreme_sheets(random: &mut Random) -> Vec<Sheet> {
    let long = path(MAX_VERTICES);
    let mut sheets = vec![
        Sheet::fresh(),
        parallel(3),
        parallel(MAX_EDGES - 1),
        parallel(MAX_EDGES),
        long,
        path(MAX_VERTICES - 1),
        backward(&long),
        extended(random, &long, MAX_VERTICES, MAX_EDGES - 1),
        extended(random, &long, MAX_VERTICES, MAX_EDGES),
        grown(random, 2, MAX_EDGES),
        grown(random, 3, MAX_EDGES),
        grown(random, MAX_VERTICES, MAX_VERTICES),
        grown(random, MAX_VERTICES, MAX_EDGES),
        grown(random, MAX_VERTICES - 1, MAX_EDGES - 1),
        grown(random, MAX_VERTICES - 1, MAX_EDGES),
    ];
    for i in 0..sheets.len() {
        let sheet = sheets[i];
        sheets.push(renumbered(random, &sheet));
        sheets.push(backward(&sheet));
        sheets.push(mirrored(&sheet));
    }
    sheets
}
