//! Plate and mask in one figure (C-17), every coordinate a whole number of halves: "It has to be shown that
//! each wire but 0 crosses its own level segment in one point, and that mask and plate segments meet
//! nowhere else."

use crate::draw::Drawing;
use crate::mask::MaskSegment;
use crate::sheet::Sheet;

/// A bar, a wire or a mask segment: every point of the plane from the first x to the last and from the
/// first y to the last. As it is upright or level, or one point, one of the two is one number.
#[derive(Clone, Copy, Debug, PartialEq, Eq)]
struct Piece {
    x: [i32; 2],
    y: [i32; 2],
}

impl Piece {
    fn of_mask(segment: MaskSegment<i32>) -> Piece {
        let [(left, low), (right, high)] = segment.ends();
        Piece { x: [left, right], y: [low, high] }
    }

    /// The points of both. Where neither x nor y shuts it out there are some.
    fn shared(&self, other: &Piece) -> Option<Piece> {
        let common = |[one, end]: [i32; 2], [other, other_end]: [i32; 2]| {
            [one.max(other), end.min(other_end)]
        };
        let (x, y) = (common(self.x, other.x), common(self.y, other.y));
        (x[0] <= x[1] && y[0] <= y[1]).then_some(Piece { x, y })
    }

    fn is_point(&self) -> bool {
        self.x[0] == self.x[1] && self.y[0] == self.y[1]
    }

    /// Whether the point is one of its two ends.
    fn ends_at(&self, point: &Piece) -> bool {
        [0, 1].iter().any(|&end| (self.x[end], self.y[end]) == (point.x[0], point.y[0]))
    }
}

/// All of it, over every pair of a plate segment and a mask segment; the first fault found is named. The
/// mask segments of the wires from 1 up come last.
pub fn check_insulation(
    sheet: &Sheet,
    drawing: &Drawing,
    mask: &[MaskSegment<i32>],
) -> Result<(), String> {
    let (bars, wires) = plate(sheet, drawing);
    let faces = (mask.len() + 1).checked_sub(wires.len()).ok_or("segments of wires are missing")?;
    for (i, &segment) in mask.iter().enumerate() {
        let segment = Piece::of_mask(segment);
        if segment.x[0] > segment.x[1] || segment.y[0] > segment.y[1] {
            return Err(format!("segment {i} runs backward"));
        }
        if let Some(v) = bars.iter().position(|bar| bar.shared(&segment).is_some()) {
            return Err(format!("segment {i} meets bar {v}"));
        }
        let own = (i >= faces).then(|| i - faces + 1);
        for (k, wire) in wires.iter().enumerate() {
            let shared = wire.shared(&segment);
            let right = if own == Some(k) { cross(wire, &segment) } else { shared.is_none() };
            if !right {
                return Err(format!("segment {i} and wire {k} share {shared:?}"));
            }
        }
    }
    Ok(())
}

/// Whether a wire and a segment share exactly one point, inside both.
fn cross(wire: &Piece, segment: &Piece) -> bool {
    let inside = |point: Piece| !wire.ends_at(&point) && !segment.ends_at(&point);
    wire.shared(segment).is_some_and(|shared| shared.is_point() && inside(shared))
}

/// The bars and the wires.
fn plate(sheet: &Sheet, drawing: &Drawing) -> (Vec<Piece>, Vec<Piece>) {
    let twice = |number: u16| 2 * i32::from(number);
    let bars = drawing.vertices[..sheet.vertices]
        .iter()
        .map(|bar| Piece { x: [twice(bar.first), twice(bar.last)], y: [twice(bar.row); 2] });
    let wires = drawing.edges[..sheet.edges]
        .iter()
        .map(|wire| Piece { x: [twice(wire.column); 2], y: [twice(wire.low), twice(wire.high)] });
    (bars.collect(), wires.collect())
}

#[cfg(test)]
mod tests {
    use super::*;

    fn piece(x: [i32; 2], y: [i32; 2]) -> Piece {
        Piece { x, y }
    }

    #[test]
    fn what_two_pieces_share() {
        let upright = piece([3, 3], [0, 8]);
        for (other, shared) in [
            (piece([0, 9], [4, 4]), Some(piece([3, 3], [4, 4]))),
            (piece([0, 3], [8, 8]), Some(piece([3, 3], [8, 8]))),
            (piece([0, 9], [9, 9]), None),
            (piece([4, 9], [4, 4]), None),
            (piece([3, 3], [5, 9]), Some(piece([3, 3], [5, 8]))),
            (piece([3, 3], [8, 9]), Some(piece([3, 3], [8, 8]))),
            (piece([2, 2], [0, 8]), None),
            (piece([3, 3], [6, 6]), Some(piece([3, 3], [6, 6]))),
        ] {
            assert_eq!(upright.shared(&other), shared);
            assert_eq!(other.shared(&upright), shared);
        }
    }

    #[test]
    fn a_crossing_is_inside_both() {
        let wire = piece([4, 4], [2, 6]);
        assert!(cross(&wire, &piece([3, 5], [3, 3])));
        for segment in [
            piece([3, 5], [2, 2]),
            piece([3, 5], [6, 6]),
            piece([4, 5], [3, 3]),
            piece([3, 4], [3, 3]),
            piece([4, 4], [3, 3]),
            piece([4, 4], [1, 7]),
            piece([3, 5], [7, 7]),
            piece([5, 7], [3, 3]),
        ] {
            assert!(!cross(&wire, &segment), "{segment:?}");
        }
    }
}
