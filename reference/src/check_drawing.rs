//! Drawings from the artwork package (C-16).

use crate::draw::{Drawing, EdgeSegment, VertexSegment};
use crate::segments::{Pair, Point, Segment};
use crate::sheet::{Answer, Sheet};
use crate::sound::is_sound;
use crate::text::numbers;

/// "a yes or no on it for a given sheet": "It refuses by 20, after 9: [...]; 21, next, [...]; 22, last,
/// a ring is in another order." Each is asked of the whole drawing before the next.
pub fn check_drawing(sheet: &Sheet, text: &[u8]) -> Answer {
    if !is_sound(sheet) {
        return Err(9);
    }
    let drawing = read_drawing(sheet, text).ok_or(20)?;
    if !within_declared(sheet, &drawing) {
        return Err(20);
    }
    let figure = Figure::new(sheet, &drawing);
    if !figure.ends_are_on_their_bars() || !figure.keeps_apart() {
        return Err(21);
    }
    if !(0..sheet.vertices).all(|v| is_clockwise(sheet, &drawing, v)) {
        return Err(22);
    }
    Ok(())
}

/// "Its lines end in 10 alone, its numbers are load's, of one to three digits." `None` where "the text
/// hasn't the line layout and line counts for this sheet".
fn read_drawing(sheet: &Sheet, text: &[u8]) -> Option<Drawing> {
    let mut lines = text.split(|&byte| byte == b'\n');
    let mut drawing = Drawing::zeros();
    [drawing.rows] = read_line(lines.next(), b"rows=")?;
    [drawing.columns] = read_line(lines.next(), b"columns=")?;
    for bar in &mut drawing.vertices[..sheet.vertices] {
        let [row, first, last] = read_line(lines.next(), b"bar=")?;
        *bar = VertexSegment { row, first, last };
    }
    for wire in &mut drawing.edges[..sheet.edges] {
        let [column, low, high] = read_line(lines.next(), b"wire=")?;
        *wire = EdgeSegment { column, low, high };
    }
    // Behind the byte 10 of the last line there is nothing.
    (lines.next() == Some(b"") && lines.next().is_none()).then_some(drawing)
}

fn read_line<const COUNT: usize>(line: Option<&[u8]>, key: &[u8]) -> Option<[u16; COUNT]> {
    Some(numbers(line?, key)?.map(|number| number as u16))
}

/// Neither "a bar's first column exceeds its last, or a tail row isn't below its head row, or a row or
/// column isn't below the number declared".
fn within_declared(sheet: &Sheet, drawing: &Drawing) -> bool {
    let row = |row: u16| row < drawing.rows;
    let column = |column: u16| column < drawing.columns;
    let bar = |bar: &VertexSegment| {
        bar.first <= bar.last && row(bar.row) && column(bar.first) && column(bar.last)
    };
    let wire = |wire: &EdgeSegment| {
        wire.low < wire.high && row(wire.low) && row(wire.high) && column(wire.column)
    };
    drawing.vertices[..sheet.vertices].iter().all(bar)
        && drawing.edges[..sheet.edges].iter().all(wire)
}

/// A wire or a bar in the plane, columns to the right and rows up.
struct Piece {
    segment: Segment,
    /// The points where another piece may touch it, each with its bar: for a wire its end at its tail
    /// and that at its head.
    ends: Vec<(Pair, usize)>,
    /// The bar that it is; `None` for a wire.
    bar: Option<usize>,
}

/// All bars, then all wires.
struct Figure {
    pieces: Vec<Piece>,
    bars: usize,
}

impl Figure {
    fn new(sheet: &Sheet, drawing: &Drawing) -> Figure {
        let point = |column: u16, row: u16| (i64::from(column), i64::from(row));
        let mut pieces = Vec::with_capacity(sheet.vertices + sheet.edges);
        for (v, bar) in drawing.vertices[..sheet.vertices].iter().enumerate() {
            let segment = Segment::between(point(bar.first, bar.row), point(bar.last, bar.row));
            pieces.push(Piece { segment, ends: Vec::new(), bar: Some(v) });
        }
        for (k, wire) in drawing.edges[..sheet.edges].iter().enumerate() {
            let (low, high) = (point(wire.column, wire.low), point(wire.column, wire.high));
            let ends = vec![(low, sheet.vertex_of(2 * k)), (high, sheet.vertex_of(2 * k + 1))];
            pieces.push(Piece { segment: Segment::between(low, high), ends, bar: None });
        }
        Figure { pieces, bars: sheet.vertices }
    }

    /// Otherwise "a wire end is off its bar".
    fn ends_are_on_their_bars(&self) -> bool {
        let on_its_bar = |&(end, bar): &(Pair, usize)| {
            Segment::between(end, end).shared(&self.pieces[bar].segment).is_some()
        };
        self.pieces[self.bars..].iter().all(|wire| wire.ends.iter().all(on_its_bar))
    }

    /// Otherwise "a forbidden point is shared".
    fn keeps_apart(&self) -> bool {
        self.pieces.iter().enumerate().all(|(i, one)| {
            self.pieces[i + 1..].iter().all(|other| match one.segment.shared(&other.segment) {
                None => true,
                // Of the points of a stretch not all can be permitted, which are no more than two.
                Some([from, to]) => from == to && may_share(one, other, from),
            })
        })
    }
}

/// "no two segments share a point that the no-contact property forbids": two bars may share none, a bar
/// and a wire the wire's own end at the bar, two wires an end of both at one bar.
fn may_share(one: &Piece, other: &Piece, point: Point) -> bool {
    let ends_here = |piece: &Piece, bar: usize| {
        piece.ends.iter().any(|&(end, own)| own == bar && point.is(end))
    };
    match (one.bar, other.bar) {
        (Some(_), Some(_)) => false,
        (Some(bar), None) => ends_here(other, bar),
        (None, Some(bar)) => ends_here(one, bar),
        (None, None) => {
            one.ends.iter().any(|&(_, bar)| ends_here(one, bar) && ends_here(other, bar))
        }
    }
}

/// "At a bar, upward wires by rising column, then downward wires by falling column, is the clockwise
/// order, wherever one starts." The ring of the sheet, from the end that comes first in this order.
fn is_clockwise(sheet: &Sheet, drawing: &Drawing, v: usize) -> bool {
    let ends = (0..2 * sheet.edges).filter(|&end| sheet.vertex_of(end) == v);
    let (mut order, mut downward): (Vec<usize>, Vec<usize>) = ends.partition(|end| end % 2 == 0);
    let column = |end: &usize| drawing.edges[end / 2].column;
    order.sort_by_key(column);
    downward.sort_by_key(column);
    order.extend(downward.iter().rev());
    let ring = std::iter::successors(order.first().copied(), |&end| Some(sheet.next(end)));
    ring.take(order.len()).eq(order.iter().copied())
}
