//! The readings of C-12: a bar but 0 and 1 ends one column before the face to its right.

mod common;

use common::{drawn_sheets, plate_words, slow, P4};
use reference::Drawing;

/// The wire of greatest column among those whose bar this is; `bars` are the tails or the heads.
fn rightmost(drawing: &Drawing, bars: &[u16], v: usize) -> usize {
    let wires = (0..bars.len()).filter(|&k| bars[k] as usize == v);
    wires.max_by_key(|&k| drawing.edges[k].column).expect("a wire")
}

#[test]
fn f7_one_face_to_the_right() {
    let (mut bars, mut longer) = (0, 0);
    for (sheet, drawing) in drawn_sheets(91) {
        let columns = slow::face_columns(&sheet);
        for v in 2..sheet.vertices {
            let upward = rightmost(&drawing, &sheet.tails[..sheet.edges], v);
            let downward = rightmost(&drawing, &sheet.heads[..sheet.edges], v);
            let face = slow::face_of(&sheet, 2 * upward + 1);
            assert_eq!(slow::face_of(&sheet, 2 * downward + 1), face, "bar {v} of {sheet:?}");
            let last = drawing.vertices[v].last;
            assert_eq!(last as usize + 1, columns[&face], "bar {v} of {sheet:?}");
            let own = drawing.edges[upward].column.max(drawing.edges[downward].column);
            assert!(own <= last);
            bars += 1;
            longer += usize::from(own < last);
        }
    }
    assert!(bars > 10_000 && longer > 2_000, "{longer} of {bars} bars are longer");
}

#[test]
fn f7_bars_0_and_1_as_before() {
    for (sheet, drawing) in drawn_sheets(92) {
        for (v, bars) in [(0, sheet.tails), (1, sheet.heads)] {
            let k = rightmost(&drawing, &bars[..sheet.edges], v);
            assert_eq!(drawing.vertices[v].last, drawing.edges[k].column);
            assert_eq!(drawing.vertices[v].last + 1, drawing.columns);
        }
    }
}

#[test]
fn f7_first_columns_as_before() {
    for (sheet, drawing) in drawn_sheets(93) {
        for v in 0..sheet.vertices {
            let own = |&k: &usize| [sheet.tails[k], sheet.heads[k]].contains(&(v as u16));
            let columns = (0..sheet.edges).filter(own).map(|k| drawing.edges[k].column);
            assert_eq!(Some(drawing.vertices[v].first), columns.min());
        }
    }
}

/// In P4 the face left of wires 1 and 2 has column 0, that between wires 2, 5 and 4 column 1, that
/// between wires 1, 5 and 3 column 2, and that left of wire 0 column 3.
#[test]
fn f7_a_bar_on_each_wire_of_p4() {
    let printed = |edits: &str| plate_words(&format!("{P4} {edits}"));
    // The face right of wire 1: "bar 4 then goes from column 0 to 1 where it used to be the one
    // point 0".
    let on_wire_1 = "rows=5 columns=4 bar=0,0,3 bar=4,0,3 bar=2,0,1 bar=3,1,2 bar=1,0,1 \
        wire=3,0,4 wire=0,0,1 wire=0,2,4 wire=2,0,3 wire=1,3,4 wire=1,2,3 wire=0,1,2";
    assert_eq!(printed("in=1"), on_wire_1);
    // The face right of wire 2 has column 1: still one point.
    let on_wire_2 = "rows=4 columns=4 bar=0,0,3 bar=3,0,3 bar=1,0,1 bar=2,1,2 bar=2,0,0 \
        wire=3,0,3 wire=0,0,1 wire=0,1,2 wire=2,0,2 wire=1,2,3 wire=1,1,2 wire=0,2,3";
    assert_eq!(printed("in=2"), on_wire_2);
    // Up to wire 0: from column 2, and from column 1.
    let on_wire_3 = "rows=4 columns=4 bar=0,0,3 bar=3,0,3 bar=1,0,1 bar=2,1,2 bar=1,2,2 \
        wire=3,0,3 wire=0,0,1 wire=0,1,3 wire=2,0,1 wire=1,2,3 wire=1,1,2 wire=2,1,2";
    assert_eq!(printed("in=3"), on_wire_3);
    let on_wire_4 = "rows=5 columns=4 bar=0,0,3 bar=4,0,3 bar=1,0,1 bar=2,1,2 bar=3,1,2 \
        wire=3,0,4 wire=0,0,1 wire=0,1,4 wire=2,0,2 wire=1,2,3 wire=1,1,2 wire=1,3,4";
    assert_eq!(printed("in=4"), on_wire_4);
    // The face right of wire 5 has column 2.
    let on_wire_5 = "rows=5 columns=4 bar=0,0,3 bar=4,0,3 bar=1,0,1 bar=3,1,2 bar=2,1,1 \
        wire=3,0,4 wire=0,0,1 wire=0,1,4 wire=2,0,3 wire=1,3,4 wire=1,1,2 wire=1,2,3";
    assert_eq!(printed("in=5"), on_wire_5);
}

#[test]
fn f7_two_bars_on_wires_of_p4() {
    let printed = |edits: &str| plate_words(&format!("{P4} {edits}"));
    // One above the other.
    let chain = "rows=6 columns=4 bar=0,0,3 bar=5,0,3 bar=3,0,1 bar=4,1,2 bar=2,0,1 bar=1,0,1 \
        wire=3,0,5 wire=0,0,1 wire=0,3,5 wire=2,0,4 wire=1,4,5 wire=1,3,4 wire=0,2,3 wire=0,1,2";
    assert_eq!(printed("in=1 in=1"), chain);
    // In one row, the first up to the second.
    let beside = "rows=5 columns=4 bar=0,0,3 bar=4,0,3 bar=2,0,1 bar=3,1,2 bar=1,0,1 bar=1,2,2 \
        wire=3,0,4 wire=0,0,1 wire=0,2,4 wire=2,0,1 wire=1,3,4 wire=1,2,3 wire=0,1,2 wire=2,1,3";
    assert_eq!(printed("in=1 in=3"), beside);
}

/// A second wire from bar 2 to bar 3, left of wire 5, puts the face right of wire 1 in column 3.
#[test]
fn f7_two_columns_longer() {
    let printed = |edits: &str| plate_words(&format!("{P4} in=1 run=2,2,3,5 {edits}"));
    let bars = "rows=5 columns=5 bar=0,0,4 bar=4,0,4 bar=2,0,2 bar=3,1,3 bar=1,0,2";
    let wires = "wire=4,0,4 wire=0,0,1 wire=0,2,4 wire=3,0,3 wire=1,3,4 wire=2,2,3";
    assert_eq!(printed(""), format!("{bars} {wires} wire=0,1,2 wire=1,2,3"));
    // A second wire from bar 4 to bar 2, left of wire 6: the rightmost upward wire of bar 4 is now in
    // column 1, its rightmost downward wire in column 0, and the face right of both is the same.
    let more = "wire=1,1,2 wire=1,2,3 wire=0,1,2";
    assert_eq!(printed("run=4,1,2,6"), format!("{bars} {wires} {more}"));
}
