//! The check of a drawing's text in plain Rust: every pair of segments, over whole numbers and without a branch. Reading and the rings
//! take one pass.

use bench::plain::{is_sound, next, Reader};
use reference::{Sheet, MAX_EDGES, MAX_VERTICES};

/// Each number of the segments in an array of its own, so that a segment is compared with several others at once.
struct Drawing {
    rows: [u16; MAX_VERTICES],
    firsts: [u16; MAX_VERTICES],
    lasts: [u16; MAX_VERTICES],
    columns: [u16; MAX_EDGES],
    lows: [u16; MAX_EDGES],
    highs: [u16; MAX_EDGES],
}

impl Drawing {
    fn zeros() -> Drawing {
        let (vertices, edges) = ([0; MAX_VERTICES], [0; MAX_EDGES]);
        Drawing { rows: vertices, firsts: vertices, lasts: vertices, columns: edges, lows: edges, highs: edges }
    }
}

pub fn check_drawing(s: &Sheet, text: &[u8]) -> u16 {
    if !is_sound(s) {
        return 9;
    }
    let Some(drawing) = read(s, text) else { return 20 };
    if !on_vertices(s, &drawing) || touches(s, &drawing) {
        return 21;
    }
    if turned(s, &drawing) {
        return 22;
    }
    0
}

/// `None` where the text is refused 20.
fn read(s: &Sheet, text: &[u8]) -> Option<Drawing> {
    let mut reader = Reader::new(text);
    let [rows] = line(&mut reader, b"rows=")?;
    let [columns] = line(&mut reader, b"columns=")?;
    let mut drawing = Drawing::zeros();
    for v in 0..s.vertices {
        let [row, first, last] = line(&mut reader, b"bar=")?;
        if row >= rows || first > last || last >= columns {
            return None;
        }
        (drawing.rows[v], drawing.firsts[v], drawing.lasts[v]) = (row, first, last);
    }
    for k in 0..s.edges {
        let [column, low, high] = line(&mut reader, b"wire=")?;
        if column >= columns || low >= high || high >= rows {
            return None;
        }
        (drawing.columns[k], drawing.lows[k], drawing.highs[k]) = (column, low, high);
    }
    reader.is_at_end().then_some(drawing)
}

/// A line that ends in byte 10.
fn line<const COUNT: usize>(reader: &mut Reader, key: &[u8]) -> Option<[u16; COUNT]> {
    let (numbers, end) = reader.numbers(key)?;
    (end == b'\n').then(|| numbers.map(|number: usize| number as u16))
}

/// Whether each edge runs from its tail to its head.
fn on_vertices(s: &Sheet, drawing: &Drawing) -> bool {
    let on = |v: u16, row: u16, column: u16| {
        let v = usize::from(v);
        (drawing.rows[v] == row) & (drawing.firsts[v] <= column) & (column <= drawing.lasts[v])
    };
    let runs = |k: usize| {
        let column = drawing.columns[k];
        on(s.tails[k], drawing.lows[k], column) & on(s.heads[k], drawing.highs[k], column)
    };
    (0..s.edges).fold(true, |all, k| all & runs(k))
}

/// Whether two segments share a forbidden point; for edges that are on their vertices. Of two edges in one column those that share
/// one point alone end there on one vertex, or on two that share it.
fn touches(s: &Sheet, drawing: &Drawing) -> bool {
    let (rows, firsts, lasts) = (&drawing.rows[..s.vertices], &drawing.firsts[..s.vertices], &drawing.lasts[..s.vertices]);
    let (columns, lows, highs) = (&drawing.columns[..s.edges], &drawing.lows[..s.edges], &drawing.highs[..s.edges]);
    let (tails, heads) = (&s.tails[..s.edges], &s.heads[..s.edges]);
    let mut touch = false;
    for v in 0..s.vertices {
        let (vertex, row, first, last) = (v as u16, rows[v], firsts[v], lasts[v]);
        for w in v + 1..s.vertices {
            touch |= (rows[w] == row) & (firsts[w] <= last) & (first <= lasts[w]);
        }
        for k in 0..s.edges {
            let across = (first <= columns[k]) & (columns[k] <= last) & (lows[k] <= row) & (row <= highs[k]);
            touch |= across & (tails[k] != vertex) & (heads[k] != vertex);
        }
    }
    for k in 0..s.edges {
        let (column, low, high) = (columns[k], lows[k], highs[k]);
        for l in k + 1..s.edges {
            touch |= (columns[l] == column) & (lows[l] < high) & (low < highs[l]);
        }
    }
    touch
}

/// Whether a ring is in another order than the drawing's: round a vertex the places of its darts fall once, from the last to the
/// first. Each dart's place is its column, those of downward darts after all others and the other way round.
fn turned(s: &Sheet, drawing: &Drawing) -> bool {
    let place = |dart: usize| {
        let column = drawing.columns[dart / 2];
        if dart & 1 == 0 {
            column
        } else {
            2_000 - column
        }
    };
    let mut falls = [0u16; MAX_VERTICES];
    for k in 0..s.edges {
        for (dart, vertex) in [(2 * k, s.tails[k]), (2 * k + 1, s.heads[k])] {
            falls[usize::from(vertex)] += u16::from(place(next(s, dart)) <= place(dart));
        }
    }
    falls[..s.vertices].iter().any(|&falls| falls != 1)
}

#[cfg(test)]
mod tests {
    use super::*;
    use reference::generate::{damaged_record, extreme_sheets, Drawings, Random};

    #[test]
    fn the_same_answers() {
        let random = &mut Random::new(95);
        let mut seen = [0; 23];
        let extremes = extreme_sheets(random);
        for (s, text) in Drawings::new(96).take(6_000) {
            for s in [s, damaged_record(random, &s), random.pick(&extremes)] {
                let expected = reference::check_drawing(&s, &text).map_or_else(u16::from, |()| 0);
                assert_eq!(check_drawing(&s, &text), expected, "{}", String::from_utf8_lossy(&text));
                assert_eq!(proved::check_drawing(&s, &text), expected, "{}", String::from_utf8_lossy(&text));
                seen[usize::from(expected)] += 1;
            }
        }
        for (number, count) in [(0, 2_000), (9, 4_000), (20, 4_000), (21, 800), (22, 300)] {
            assert!(seen[number] >= count, "answer {number}: {seen:?}");
        }
    }
}
