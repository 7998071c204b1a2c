//! What a drawing owes to its sheet, with segments taken as sets of points.
//!
//! Coordinates are doubled, so the points between the grid's are there too. All ends are whole
//! numbers: where two segments share any point they share a grid point, and where they share a
//! stretch they share a point half way between two grid points.

use std::collections::BTreeMap;

use reference::{Drawing, MaskSegment, Sheet};

#[derive(Clone, Copy, Debug)]
enum Piece {
    Bar(usize),
    Wire(usize),
}

/// All of it; the first fault found is named.
pub fn check(sheet: &Sheet, drawing: &Drawing) -> Result<(), String> {
    check_sizes(sheet, drawing)?;
    check_within(sheet, drawing)?;
    check_ends(sheet, drawing)?;
    check_contact(sheet, drawing)?;
    (0..sheet.vertices).try_for_each(|v| check_order(sheet, drawing, v))?;
    (0..sheet.vertices).try_for_each(|v| check_length(sheet, drawing, v))
}

fn hold(claim: bool, fault: impl Fn() -> String) -> Result<(), String> {
    if claim {
        Ok(())
    } else {
        Err(fault())
    }
}

/// At most n rows and m − n + 2 columns.
fn check_sizes(sheet: &Sheet, drawing: &Drawing) -> Result<(), String> {
    let (n, m) = (sheet.vertices, sheet.edges);
    let (rows, columns) = (drawing.rows, drawing.columns);
    hold(rows as usize <= n, || format!("{rows} rows"))?;
    hold(columns as usize <= m - n + 2, || format!("{columns} columns"))
}

/// Every segment within the rows and columns, the wires rising, unused entries 0.
pub fn check_within(sheet: &Sheet, drawing: &Drawing) -> Result<(), String> {
    let (n, m) = (sheet.vertices, sheet.edges);
    let (rows, columns) = (drawing.rows, drawing.columns);
    for (v, bar) in drawing.vertices.iter().enumerate() {
        let within = bar.row < rows && bar.first <= bar.last && bar.last < columns;
        let zero = (bar.row, bar.first, bar.last) == (0, 0, 0);
        hold(if v < n { within } else { zero }, || format!("bar {v}: {bar:?}"))?;
    }
    for (k, wire) in drawing.edges.iter().enumerate() {
        let within = wire.column < columns && wire.low < wire.high && wire.high < rows;
        let zero = (wire.column, wire.low, wire.high) == (0, 0, 0);
        hold(if k < m { within } else { zero }, || format!("wire {k}: {wire:?}"))?;
    }
    Ok(())
}

/// Each wire goes from its tail bar's row to its head bar's row, its ends on its bars.
pub fn check_ends(sheet: &Sheet, drawing: &Drawing) -> Result<(), String> {
    for k in 0..sheet.edges {
        let wire = drawing.edges[k];
        let tail = drawing.vertices[sheet.tails[k] as usize];
        let head = drawing.vertices[sheet.heads[k] as usize];
        let rows = wire.low == tail.row && wire.high == head.row;
        let on = |bar: reference::VertexSegment| (bar.first..=bar.last).contains(&wire.column);
        hold(rows && on(tail) && on(head), || format!("wire {k} off its bars"))?;
    }
    Ok(())
}

/// Every point of every bar, to its last column, and of every wire, in doubled coordinates.
fn points(sheet: &Sheet, drawing: &Drawing) -> Vec<((u16, u16), Piece)> {
    let mut points = Vec::new();
    for v in 0..sheet.vertices {
        let bar = drawing.vertices[v];
        for x in 2 * bar.first..=2 * bar.last {
            points.push(((x, 2 * bar.row), Piece::Bar(v)));
        }
    }
    for k in 0..sheet.edges {
        let wire = drawing.edges[k];
        for y in 2 * wire.low..=2 * wire.high {
            points.push(((2 * wire.column, y), Piece::Wire(k)));
        }
    }
    points.sort_by_key(|(point, _)| *point);
    points
}

/// No forbidden contact at any point.
pub fn check_contact(sheet: &Sheet, drawing: &Drawing) -> Result<(), String> {
    let points = points(sheet, drawing);
    for here in points.chunk_by(|one, other| one.0 == other.0) {
        for (i, &(point, one)) in here.iter().enumerate() {
            for &(_, other) in &here[i + 1..] {
                let allowed = may_touch(sheet, drawing, point, one, other);
                hold(allowed, || format!("{one:?} and {other:?} at {point:?}"))?;
            }
        }
    }
    Ok(())
}

/// Two bars never. A wire and a bar at the wire's end at that bar. Two wires where the head end of
/// one and the tail end of the other are on one bar.
fn may_touch(sheet: &Sheet, drawing: &Drawing, at: (u16, u16), one: Piece, other: Piece) -> bool {
    let tail_end = |k: usize| (2 * drawing.edges[k].column, 2 * drawing.edges[k].low);
    let head_end = |k: usize| (2 * drawing.edges[k].column, 2 * drawing.edges[k].high);
    let chained = |j: usize, k: usize| {
        sheet.heads[j] == sheet.tails[k] && at == head_end(j) && at == tail_end(k)
    };
    match (one, other) {
        (Piece::Bar(_), Piece::Bar(_)) => false,
        (Piece::Bar(v), Piece::Wire(k)) | (Piece::Wire(k), Piece::Bar(v)) => {
            (sheet.tails[k] as usize == v && at == tail_end(k))
                || (sheet.heads[k] as usize == v && at == head_end(k))
        }
        (Piece::Wire(j), Piece::Wire(k)) => chained(j, k) || chained(k, j),
    }
}

/// "At a bar, upward wires by rising column, then downward wires by falling column, is the
/// clockwise order, wherever one starts."
pub fn check_order(sheet: &Sheet, drawing: &Drawing, v: usize) -> Result<(), String> {
    let column = |k: &usize| drawing.edges[*k].column;
    let mut upward: Vec<usize> =
        (0..sheet.edges).filter(|&k| sheet.tails[k] as usize == v).collect();
    let mut downward: Vec<usize> =
        (0..sheet.edges).filter(|&k| sheet.heads[k] as usize == v).collect();
    upward.sort_by_key(column);
    downward.sort_by_key(|k| std::cmp::Reverse(column(k)));
    let up = upward.iter().map(|k| 2 * k);
    let clockwise: Vec<usize> = up.chain(downward.iter().map(|k| 2 * k + 1)).collect();
    for (i, &end) in clockwise.iter().enumerate() {
        let next = clockwise[(i + 1) % clockwise.len()];
        hold(sheet.nexts[end] as usize == next, || format!("order at bar {v}: {clockwise:?}"))?;
    }
    Ok(())
}

/// "the plate trade now draws a bar up to its right neighbour": one column further a bar but 0 and 1
/// would be on a wire. Without contact there is one such end, so this and `check_contact` give the
/// last column with no word of faces. "Bars 0 and 1 are drawn as before": they end with their wires.
fn check_length(sheet: &Sheet, drawing: &Drawing, v: usize) -> Result<(), String> {
    let bar = drawing.vertices[v];
    let mut wires = drawing.edges[..sheet.edges].iter().enumerate();
    let own = |k: usize| [sheet.tails[k], sheet.heads[k]].contains(&(v as u16));
    let ends = if v < 2 {
        wires.filter(|(k, _)| own(*k)).map(|(_, wire)| wire.column).max() == Some(bar.last)
    } else {
        wires.any(|(_, wire)| {
            wire.column == bar.last + 1 && (wire.low..=wire.high).contains(&bar.row)
        })
    };
    hold(ends, || format!("length of bar {v}: {bar:?}"))
}

/// Plate and mask in one figure, the mask in halves, which are doubled coordinates: at a point of a mask
/// segment there is no bar and no wire but its own, and its own at exactly one, which is no end. Two that
/// share a stretch share more than one of these points.
pub fn check_insulation(
    sheet: &Sheet,
    drawing: &Drawing,
    mask: &[MaskSegment<i32>],
) -> Result<(), String> {
    let mut plate: BTreeMap<(i32, i32), Vec<Piece>> = BTreeMap::new();
    for ((x, y), piece) in points(sheet, drawing) {
        plate.entry((x.into(), y.into())).or_default().push(piece);
    }
    let mut crossings = vec![0; sheet.edges];
    for (i, segment) in mask.iter().enumerate() {
        let points: Vec<(i32, i32)> = match *segment {
            MaskSegment::Upright(x, low, high) => (low..=high).map(|y| (x, y)).collect(),
            MaskSegment::Level(y, left, right) => (left..=right).map(|x| (x, y)).collect(),
        };
        hold(!points.is_empty(), || format!("{segment:?} has no point"))?;
        for (j, point) in points.iter().enumerate() {
            for &piece in plate.get(point).into_iter().flatten() {
                // Wire k's own segment has as many after it as wire k has.
                let own =
                    matches!(piece, Piece::Wire(k) if k > 0 && k + mask.len() == i + sheet.edges);
                let inside = j > 0 && j + 1 < points.len() && !is_end(drawing, piece, *point);
                hold(own && inside, || format!("{segment:?} and {piece:?} at {point:?}"))?;
                if let Piece::Wire(k) = piece {
                    crossings[k] += 1;
                }
            }
        }
    }
    hold(crossings[1..].iter().all(|&count| count == 1), || format!("crossings: {crossings:?}"))
}

/// Whether a wire ends at the point.
fn is_end(drawing: &Drawing, piece: Piece, at: (i32, i32)) -> bool {
    let Piece::Wire(k) = piece else { return false };
    [drawing.edges[k].low, drawing.edges[k].high].iter().any(|&row| 2 * i32::from(row) == at.1)
}
