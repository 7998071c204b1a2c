//! The readings of C-16: whether a drawing from the artwork package is right for a sheet. "It refuses by
//! 20, after 9: the text hasn't the line layout and line counts for this sheet, or a bar's first column
//! exceeds its last, or a tail row isn't below its head row, or a row or column isn't below the number
//! declared; 21, next, a wire end is off its bar or a forbidden point is shared; 22, last, a ring is in
//! another order."

mod common;

use common::{drawn_sheets, examples, examples_in, lines, sheet_of, FRESH, FRESH_DRAWN, P4};
use reference::generate::drawings::{
    mirror_image, moved, other_outer_face, too_long, totals, upside_down,
};
use reference::generate::sheets::{mirrored, parallel, path};
use reference::generate::{damaged_record, likely_edit, mixed_ends, truncations, Random};
use reference::write::drawing_text;
use reference::{apply, check_drawing, draw, is_sound, verify, Answer, Drawing, Sheet};

const P2: &str = "bars=2 wires=3 wire=0,1 wire=0,1 wire=0,1 around=0,1,2 around=0,2,1";

const P4_DRAWN: &str = "rows=4 columns=4 bar=0,0,3 bar=3,0,3 bar=1,0,1 bar=2,1,2 wire=3,0,3 \
    wire=0,0,1 wire=0,1,3 wire=2,0,2 wire=1,2,3 wire=1,1,2";

/// The sheet of P5: two wires from bar 0 to bar 2.
const P5: &str = "bars=3 wires=4 wire=0,1 wire=0,2 wire=2,1 wire=0,2 around=0,1,3 around=0,2 \
    around=1,2,3";

/// P2 with bar 2 on its wire 1 and bar 3 on its wire 2.
const TWO_BARS: &str = "bars=4 wires=5 wire=0,1 wire=0,2 wire=0,3 wire=2,1 wire=3,1 around=0,1,2 \
    around=0,4,3 around=1,3 around=2,4";

/// The answer to the drawing of the given words, for the sheet of the given words.
fn answer(sheet: &str, drawing: &str) -> Answer {
    check_drawing(&sheet_of(sheet), &lines(drawing))
}

/// The answer to a drawing of the sheet.
fn answer_drawn(sheet: &Sheet, drawing: &Drawing) -> Answer {
    check_drawing(sheet, &drawing_text(sheet, drawing))
}

/// The words with one of them replaced.
fn replaced(words: &str, at: usize, new: &str) -> String {
    let mut words: Vec<&str> = words.split_whitespace().collect();
    words[at] = new;
    words.join(" ")
}

/// "Every drawing that our program makes must be accepted."
#[test]
fn our_drawings_are_accepted() {
    assert_eq!(answer(FRESH, FRESH_DRAWN), Ok(()));
    assert_eq!(answer(P4, P4_DRAWN), Ok(()));
    for (sheet, drawing) in drawn_sheets(151) {
        assert_eq!(answer_drawn(&sheet, &drawing), Ok(()), "{sheet:?}");
    }
    let random = &mut Random::new(152);
    for _ in 0..100 {
        let mut sheet = Sheet::fresh();
        for _ in 0..40 {
            let edit = likely_edit(random, &sheet);
            sheet = apply(&sheet, edit).1;
            assert_eq!(answer_drawn(&sheet, &draw(&sheet).1), Ok(()), "{sheet:?}");
        }
    }
}

/// "after 9": whatever the text is.
#[test]
fn a_sheet_that_is_not_sound() {
    let mut unused = sheet_of(P4);
    unused.nexts[511] = 1;
    for text in [lines(P4_DRAWN), lines("rows=1"), Vec::new()] {
        assert_eq!(check_drawing(&unused, &text), Err(9));
        assert_eq!(check_drawing(&Sheet::blank(0, 0), &text), Err(9));
        assert_eq!(check_drawing(&Sheet::blank(77, usize::MAX), &text), Err(9));
    }
    let random = &mut Random::new(153);
    let mut refused = 0;
    for (sheet, drawing) in drawn_sheets(154) {
        let record = damaged_record(random, &sheet);
        if !is_sound(&record) {
            assert_eq!(check_drawing(&record, &drawing_text(&sheet, &drawing)), Err(9));
            refused += 1;
        }
    }
    assert!(refused > 400, "{refused}");
}

#[test]
fn f21_lines_for_this_sheet() {
    let drawn: Vec<&str> = FRESH_DRAWN.split_whitespace().collect();
    for i in 0..drawn.len() {
        let without = [&drawn[..i], &drawn[i + 1..]].concat().join(" ");
        assert_eq!(answer(FRESH, &without), Err(20), "{without}");
        let doubled = [&drawn[..i], &[drawn[i]], &drawn[i..]].concat().join(" ");
        assert_eq!(answer(FRESH, &doubled), Err(20), "{doubled}");
    }
    // Another order of the lines; where two bars or two wires change places, each line is of the layout.
    let exchanged = |i: usize, j: usize| {
        let mut words = drawn.clone();
        words.swap(i, j);
        answer(FRESH, &words.join(" "))
    };
    assert_eq!([exchanged(0, 1), exchanged(1, 2), exchanged(3, 4)], [Err(20); 3]);
    assert_eq!(exchanged(2, 3), Err(21));
    assert_eq!(exchanged(4, 5), Ok(()));
    // The drawing of a sheet of other counts.
    assert_eq!([answer(FRESH, P4_DRAWN), answer(P4, FRESH_DRAWN)], [Err(20); 2]);
    assert_eq!(answer(P2, FRESH_DRAWN), Err(20));
    assert_eq!(check_drawing(&Sheet::fresh(), b""), Err(20));
}

/// "its numbers are load's, of one to three digits"
#[test]
fn f21_the_layout_of_each_line() {
    for (i, line) in FRESH_DRAWN.split_whitespace().enumerate() {
        let (key, numbers) = line.split_once('=').expect("a key");
        for key in ["row", "colums", "bars", "wires", "Bar", "WIRE", "around", ""] {
            let drawing = replaced(FRESH_DRAWN, i, &format!("{key}={numbers}"));
            assert_eq!(answer(FRESH, &drawing), Err(20), "{drawing}");
        }
        let wrong = ["", ",", "00", "01", "+1", "-1", "1000", "0x1", "1.0", "1a"];
        let fields: Vec<&str> = numbers.split(',').collect();
        for field in 0..fields.len() {
            for number in wrong {
                let mut fields = fields.clone();
                fields[field] = number;
                let drawing = replaced(FRESH_DRAWN, i, &format!("{key}={}", fields.join(",")));
                assert_eq!(answer(FRESH, &drawing), Err(20), "{drawing}");
            }
        }
        for more in [",", ",0", ",1", ";", "="] {
            let drawing = replaced(FRESH_DRAWN, i, &format!("{line}{more}"));
            assert_eq!(answer(FRESH, &drawing), Err(20), "{drawing}");
        }
        if let Some((fewer, _)) = line.rsplit_once(',') {
            assert_eq!(answer(FRESH, &replaced(FRESH_DRAWN, i, fewer)), Err(20), "{fewer}");
        }
    }
}

/// "Its lines end in 10 alone"
#[test]
fn f21_line_ends() {
    let text = lines(FRESH_DRAWN);
    let check = |text: &[u8]| check_drawing(&Sheet::fresh(), text);
    assert_eq!(check(&text), Ok(()));
    for at in 0..=text.len() {
        for byte in [b'\r', b'\n', b' ', b'\t', 0, b','] {
            let more = [&text[..at], &[byte], &text[at..]].concat();
            assert_eq!(check(&more), Err(20), "{:?}", String::from_utf8_lossy(&more));
        }
    }
    for front in truncations(&text).take(text.len()) {
        assert_eq!(check(front), Err(20), "{:?}", String::from_utf8_lossy(front));
    }
    let random = &mut Random::new(155);
    for _ in 0..40 {
        let mixed = mixed_ends(random, &text);
        assert_eq!(check(&mixed), if mixed == text { Ok(()) } else { Err(20) });
    }
}

/// "what C-16 accepts has no such lines" (C-19): lengths 1 and 1 of the bars, 1 and 1 of the wires.
#[test]
fn f21_the_totals_are_not_of_the_layout() {
    let with_totals = format!("{FRESH_DRAWN} barlength=2 wirelength=2");
    assert_eq!(answer(FRESH, &with_totals), Err(20));
    let sheet = Sheet::fresh();
    assert_eq!(totals(&sheet, &draw(&sheet).1), b"barlength=2\nwirelength=2\n");
    for (sheet, drawing) in drawn_sheets(156) {
        let text = [drawing_text(&sheet, &drawing), totals(&sheet, &drawing)].concat();
        assert_eq!(check_drawing(&sheet, &text), Err(20));
    }
}

#[test]
fn a_bar_that_ends_before_it_begins() {
    assert_eq!(answer(FRESH, &replaced(FRESH_DRAWN, 2, "bar=0,1,0")), Err(20));
    assert_eq!(answer(FRESH, &replaced(FRESH_DRAWN, 3, "bar=1,1,0")), Err(20));
    // A bar of one point is none of these; but wire 1 ends beside it.
    assert_eq!(answer(FRESH, &replaced(FRESH_DRAWN, 3, "bar=1,1,1")), Err(21));
    assert_eq!(answer(P4, &replaced(P4_DRAWN, 4, "bar=1,1,0")), Err(20));
}

#[test]
fn a_wire_that_does_not_rise() {
    for wire in ["wire=1,1,0", "wire=1,0,0", "wire=1,1,1"] {
        assert_eq!(answer(FRESH, &replaced(FRESH_DRAWN, 4, wire)), Err(20), "{wire}");
    }
    assert_eq!(answer(P4, &replaced(P4_DRAWN, 11, "wire=1,2,1")), Err(20));
}

#[test]
fn f22_below_the_number_declared() {
    let fresh = |at: usize, line: &str| answer(FRESH, &replaced(FRESH_DRAWN, at, line));
    for line in ["rows=0", "rows=1"] {
        assert_eq!(fresh(0, line), Err(20), "{line}");
    }
    for line in ["columns=0", "columns=1"] {
        assert_eq!(fresh(1, line), Err(20), "{line}");
    }
    for line in ["bar=2,0,1", "bar=0,0,2", "bar=0,2,2", "bar=999,0,1"] {
        assert_eq!(fresh(2, line), Err(20), "{line}");
    }
    for line in ["wire=2,0,1", "wire=1,0,2", "wire=1,2,3", "wire=999,0,1", "wire=1,0,999"] {
        assert_eq!(fresh(4, line), Err(20), "{line}");
    }
}

/// "The rows and columns in a foreign drawing may be larger than ours."
#[test]
fn f22_rows_and_columns_larger_than_ours() {
    for line in ["rows=3", "rows=128", "rows=999"] {
        assert_eq!(answer(FRESH, &replaced(FRESH_DRAWN, 0, line)), Ok(()), "{line}");
    }
    for line in ["columns=3", "columns=999"] {
        assert_eq!(answer(FRESH, &replaced(FRESH_DRAWN, 1, line)), Ok(()), "{line}");
    }
    let far = "rows=999 columns=999 bar=0,0,998 bar=998,0,998 wire=998,0,998 wire=0,0,998";
    assert_eq!(answer(FRESH, far), Ok(()));
    let farther = "rows=999 columns=999 bar=0,0,998 bar=999,0,998 wire=998,0,999 wire=0,0,999";
    assert_eq!(answer(FRESH, farther), Err(20));
    let four_digits = "rows=1000 columns=999 bar=0,0,998 bar=999,0,998 wire=998,0,999 wire=0,0,999";
    assert_eq!(answer(FRESH, four_digits), Err(20));
    // Neither from row 0 on nor from column 0 on.
    let within = "rows=9 columns=9 bar=3,4,6 bar=7,4,6 wire=6,3,7 wire=4,3,7";
    assert_eq!(answer(FRESH, within), Ok(()));
}

/// A mistake of 20 in the last line comes before one of 21 in the first, and so on.
#[test]
fn f23_over_the_whole_drawing() {
    // Bar 0 does not reach wire 0: 21. A last wire that does not rise, and a row that isn't below: 20.
    let short = replaced(P4_DRAWN, 2, "bar=0,0,2");
    assert_eq!(answer(P4, &short), Err(21));
    assert_eq!(answer(P4, &replaced(&short, 11, "wire=1,2,1")), Err(20));
    assert_eq!(answer(P4, &replaced(&short, 11, "wire=1,1,4")), Err(20));
    assert_eq!(answer(P4, &format!("{short} wire=0,0,1")), Err(20));
    // Wires 1 and 3 of P5 change places: 22 at bar 0. Wire 3 in the column of wire 1 too: 21.
    let turned = "rows=3 columns=3 bar=0,0,2 bar=2,0,2 bar=1,0,1 wire=2,0,2 wire=1,0,1 wire=0,1,2 \
        wire=0,0,1";
    assert_eq!(answer(P5, turned), Err(22));
    assert_eq!(answer(P5, &replaced(turned, 8, "wire=1,0,1")), Err(21));
    assert_eq!(answer(P5, &replaced(turned, 8, "wire=3,0,1")), Err(20));
    // Wire 0 is not on bar 1, and two wires share a stretch: 21 for both.
    let both = "rows=3 columns=3 bar=0,0,2 bar=2,0,1 bar=1,0,1 wire=2,0,2 wire=1,0,1 wire=0,1,2 \
        wire=1,0,1";
    assert_eq!(answer(P5, both), Err(21));
}

/// "each wire rises from its own tail bar to its own head bar"
#[test]
fn f24_a_wire_end_off_its_bar() {
    // Beside it.
    assert_eq!(answer(FRESH, &replaced(FRESH_DRAWN, 2, "bar=0,0,0")), Err(21));
    assert_eq!(answer(FRESH, &replaced(FRESH_DRAWN, 2, "bar=0,1,1")), Err(21));
    assert_eq!(answer(FRESH, &replaced(FRESH_DRAWN, 3, "bar=1,0,0")), Err(21));
    // Above or below it.
    let rows = "rows=4 columns=2 bar=1,0,1 bar=2,0,1 wire=1,1,2 wire=0,1,2";
    assert_eq!(answer(FRESH, rows), Ok(()));
    for wire in ["wire=0,0,2", "wire=0,1,3", "wire=0,0,1", "wire=0,2,3", "wire=0,0,3"] {
        assert_eq!(answer(FRESH, &replaced(rows, 5, wire)), Err(21), "{wire}");
    }
    // On the bars of other wires: wires 1 and 3 of P4 exchanged.
    let exchanged = replaced(&replaced(P4_DRAWN, 7, "wire=2,0,2"), 9, "wire=0,0,1");
    assert_eq!(answer(P4, &exchanged), Err(21));
    // Bars 2 and 3 exchanged.
    let exchanged = replaced(&replaced(P4_DRAWN, 4, "bar=2,1,2"), 5, "bar=1,0,1");
    assert_eq!(answer(P4, &exchanged), Err(21));
    // A wire moved along its bars is on them.
    assert_eq!(answer(P5, &P5_MOVED.replace("wire=0,1,2", "wire=1,1,2")), Ok(()));
}

/// P5 as drawn, but bar 2 as long as it can be where wire 0 is two columns farther.
const P5_MOVED: &str = "rows=3 columns=5 bar=0,0,4 bar=2,0,4 bar=1,0,3 wire=4,0,2 wire=0,0,1 \
    wire=0,1,2 wire=1,0,1";

/// Two wires in one column share the stretch from row 0 to row 1. No grid point lies inside it, and at
/// both of its ends both wires end on one bar.
#[test]
fn a_stretch_with_no_grid_point_inside() {
    assert_eq!(answer(FRESH, &replaced(FRESH_DRAWN, 4, "wire=0,0,1")), Err(21));
    assert_eq!(answer(FRESH, &replaced(FRESH_DRAWN, 5, "wire=1,0,1")), Err(21));
    // Wires 1 and 3 of P5, from bar 0 to bar 2.
    assert_eq!(answer(P5, P5_MOVED), Ok(()));
    assert_eq!(answer(P5, &P5_MOVED.replace("wire=1,0,1", "wire=0,0,1")), Err(21));
    // Wire 1 of P5 goes up to where wire 2 begins, and no farther: one point, on the bar of both.
    assert_eq!(answer(P5, &P5_MOVED.replace("wire=1,0,1", "wire=2,0,1")), Ok(()));
}

/// "no two segments share a point that the no-contact property forbids": two bars.
#[test]
fn two_bars_that_share_a_point() {
    let apart = "rows=3 columns=5 bar=0,0,4 bar=2,0,4 bar=1,0,1 bar=1,2,2 wire=4,0,2 wire=0,0,1 \
        wire=2,0,1 wire=0,1,2 wire=2,1,2";
    assert_eq!(answer(TWO_BARS, apart), Ok(()));
    // The point where both end, on no wire.
    assert_eq!(answer(TWO_BARS, &replaced(apart, 5, "bar=1,1,2")), Err(21));
    // A stretch, on a wire of one of them.
    assert_eq!(answer(TWO_BARS, &replaced(apart, 4, "bar=1,0,2")), Err(21));
    assert_eq!(answer(TWO_BARS, &replaced(apart, 4, "bar=1,0,3")), Err(21));
    // In other rows they may pass each other.
    let passing = "rows=4 columns=5 bar=0,0,4 bar=3,0,4 bar=1,0,1 bar=2,1,3 wire=4,0,3 wire=0,0,1 \
        wire=2,0,2 wire=0,1,3 wire=2,2,3";
    assert_eq!(answer(TWO_BARS, passing), Ok(()));
}

/// A bar and a wire that does not end there: it touches the bar's end, or they cross.
#[test]
fn a_bar_and_a_wire_that_share_a_point() {
    // Bar 2 of P4 up to wire 3 and over it, and bar 3 back to wire 2.
    assert_eq!(answer(P4, &replaced(P4_DRAWN, 4, "bar=1,0,2")), Err(21));
    assert_eq!(answer(P4, &replaced(P4_DRAWN, 4, "bar=1,0,3")), Err(21));
    assert_eq!(answer(P4, &replaced(P4_DRAWN, 5, "bar=2,0,2")), Err(21));
    assert_eq!(answer(P4, &replaced(P4_DRAWN, 5, "bar=2,1,3")), Err(21));
    // Wire 0 of P5 between the wires of bar 2: its bars reach it, but it crosses bar 2.
    let between = "rows=3 columns=4 bar=0,0,3 bar=2,0,3 bar=1,0,2 wire=1,0,2 wire=0,0,1 \
        wire=0,1,2 wire=2,0,1";
    assert_eq!(answer(P5, between), Err(21));
}

/// "two wires in one column share a stretch, which is forbidden, where the greater tail row is below the
/// lesser head row"
#[test]
fn two_wires_in_one_column() {
    // Wires 1 and 4, rows 0 to 1 and 2 to 3 of column 1.
    let apart = "rows=4 columns=4 bar=0,0,3 bar=3,0,3 bar=1,0,1 bar=2,1,2 wire=3,0,3 wire=1,0,1 \
        wire=2,0,2 wire=0,1,3 wire=1,2,3";
    assert_eq!(answer(TWO_BARS, apart), Ok(()));
    // Rows 0 to 2 and 1 to 3: from row 1 to row 2.
    let across = "rows=4 columns=4 bar=0,0,3 bar=3,0,3 bar=2,0,1 bar=1,1,2 wire=3,0,3 wire=1,0,2 \
        wire=2,0,1 wire=0,2,3 wire=1,1,3";
    assert_eq!(answer(TWO_BARS, across), Err(21));
    // Rows 0 to 1 and 1 to 3: one point, but on two bars.
    let point = "rows=4 columns=4 bar=0,0,3 bar=3,0,3 bar=1,0,1 bar=1,1,2 wire=3,0,3 wire=1,0,1 \
        wire=2,0,1 wire=0,1,3 wire=1,1,3";
    assert_eq!(answer(TWO_BARS, point), Err(21));
    // One within the other: wire 0 of P5 in the column of wire 1.
    let within = P5_MOVED.replace("wire=4,0,2", "wire=0,0,2");
    assert_eq!(answer(P5, &within), Err(21));
}

/// Columns 0 to 3 of P4 become 1, 3, 5 and 7: bar 2 has room from 0 to 4, bar 3 from 2 to 6.
#[test]
fn f25_bars_longer_than_their_wires_need() {
    let longer = "rows=4 columns=10 bar=0,0,9 bar=3,0,9 bar=1,0,4 bar=2,2,6 wire=7,0,3 wire=1,0,1 \
        wire=1,1,3 wire=5,0,2 wire=3,2,3 wire=3,1,2";
    assert_eq!(answer(P4, longer), Ok(()));
    assert_eq!(answer(P4, &replaced(longer, 4, "bar=1,0,5")), Err(21));
    assert_eq!(answer(P4, &replaced(longer, 5, "bar=2,1,6")), Err(21));
    assert_eq!(answer(P4, &replaced(longer, 5, "bar=2,2,7")), Err(21));
    // No longer than the wires need, where C-12 draws them longer.
    let short = "rows=5 columns=4 bar=0,0,3 bar=4,0,3 bar=2,0,1 bar=3,1,2 bar=1,0,0 wire=3,0,4 \
        wire=0,0,1 wire=0,2,4 wire=2,0,3 wire=1,3,4 wire=1,2,3 wire=0,1,2";
    let with_bar = apply(&sheet_of(P4), reference::Edit::In(1)).1;
    assert_eq!(check_drawing(&with_bar, &lines(short)), Ok(()));
    let ours = short.replace("bar=1,0,0", "bar=1,0,1");
    assert_eq!(check_drawing(&with_bar, &lines(&ours)), Ok(()));
    assert_eq!(check_drawing(&with_bar, &lines(&ours.replace("bar=1,0,1", "bar=1,0,2"))), Err(21));
}

/// "At a bar, upward wires by rising column, then downward wires by falling column, is the clockwise
/// order, wherever one starts." P2 has the ring 0,1,2 of upward wires.
#[test]
fn f26_up_to_turning() {
    let drawn = |[a, b, c]: [usize; 3]| {
        let wires = format!("wire={a},0,1 wire={b},0,1 wire={c},0,1");
        answer(P2, &format!("rows=2 columns=3 bar=0,0,2 bar=1,0,2 {wires}"))
    };
    for columns in [[2, 0, 1], [0, 1, 2], [1, 2, 0]] {
        assert_eq!(drawn(columns), Ok(()), "{columns:?}");
    }
    for columns in [[2, 1, 0], [0, 2, 1], [1, 0, 2]] {
        assert_eq!(drawn(columns), Err(22), "{columns:?}");
    }
    let mirrored = "bars=2 wires=3 wire=0,1 wire=0,1 wire=0,1 around=0,2,1 around=0,1,2";
    let turned = "rows=2 columns=3 bar=0,0,2 bar=1,0,2 wire=2,0,1 wire=1,0,1 wire=0,0,1";
    assert_eq!(answer(mirrored, turned), Ok(()));
}

/// Wire 0 of P4 at the left edge: the face outside is that left of it and right of wires 3 and 4.
#[test]
fn f26_another_outer_face() {
    let turned = "rows=4 columns=4 bar=0,0,3 bar=3,0,2 bar=1,1,2 bar=2,2,3 wire=0,0,3 wire=1,0,1 \
        wire=1,1,3 wire=3,0,2 wire=2,2,3 wire=2,1,2";
    assert_eq!(answer(P4, turned), Ok(()));
    // Now bar 2 has no room at its right, and bar 3 has.
    assert_eq!(answer(P4, &replaced(turned, 4, "bar=1,1,3")), Err(21));
    let wider = replaced(&replaced(turned, 1, "columns=9"), 5, "bar=2,2,8");
    assert_eq!(answer(P4, &wider), Ok(()));
    let mut found = 0;
    for (sheet, drawing) in drawn_sheets(157) {
        // Wire 0 is the wire of greatest column in our drawings.
        let new = other_outer_face(&sheet, &drawing).expect("wire 0");
        assert_eq!((new.edges[0].column, new.columns), (0, drawing.columns + 1));
        assert_eq!(answer_drawn(&sheet, &new), Ok(()), "{sheet:?}");
        let twice = other_outer_face(&sheet, &new);
        assert!(twice.is_none_or(|twice| answer_drawn(&sheet, &twice) == Ok(())), "{sheet:?}");
        found += usize::from(twice.is_some());
    }
    assert!(found > 100, "{found}");
    // Every turning of 256 wires between two bars.
    let wide = parallel(256);
    let mut drawing = draw(&wide).1;
    for _ in 0..256 {
        drawing = other_outer_face(&wide, &drawing).expect("room for one more");
        assert_eq!(answer_drawn(&wide, &drawing), Ok(()));
    }
    assert_eq!((drawing.columns, drawing.edges[0].column), (512, 255));
}

/// "22, last, a ring is in another order": the mirror image, but where no bar has more than two wires.
#[test]
fn f26_left_and_right_exchanged() {
    let p4 = "rows=4 columns=4 bar=0,0,3 bar=3,0,3 bar=1,2,3 bar=2,1,2 wire=0,0,3 wire=3,0,1 \
        wire=3,1,3 wire=1,0,2 wire=2,2,3 wire=2,1,2";
    assert_eq!(answer(P4, p4), Err(22));
    let fresh = "rows=2 columns=2 bar=0,0,1 bar=1,0,1 wire=0,0,1 wire=1,0,1";
    assert_eq!(answer(FRESH, fresh), Ok(()));
    let (mut same, mut other) = (0, 0);
    for (sheet, drawing) in drawn_sheets(158) {
        let two_at_most = sheet.degrees().iter().all(|&degree| degree <= 2);
        let expected = if two_at_most { Ok(()) } else { Err(22) };
        assert_eq!(answer_drawn(&sheet, &mirror_image(&sheet, &drawing)), expected, "{sheet:?}");
        assert_eq!(answer_drawn(&sheet, &draw(&mirrored(&sheet)).1), expected, "{sheet:?}");
        same += usize::from(two_at_most);
        other += usize::from(!two_at_most);
    }
    assert!(same > 20 && other > 500, "{same} {other}");
}

/// Downward wires too: bars 2 and 3 of this sheet are joined by three wires.
#[test]
fn f26_at_every_bar() {
    let three = "bars=4 wires=6 wire=0,1 wire=0,2 wire=2,3 wire=2,3 wire=2,3 wire=3,1 around=0,1 \
        around=0,5 around=1,2,3,4 around=5,4,3,2";
    let drawn = |columns: [usize; 3]| {
        let [a, b, c] = columns.map(|column| format!("wire={column},1,2"));
        let bars = "bar=0,0,3 bar=3,0,3 bar=1,0,2 bar=2,0,2";
        answer(
            three,
            &format!("rows=4 columns=4 {bars} wire=3,0,3 wire=0,0,1 {a} {b} {c} wire=0,2,3"),
        )
    };
    assert_eq!(drawn([0, 1, 2]), Ok(()));
    // Not even turned among themselves: at each of the two bars another wire comes between.
    for columns in [[0, 2, 1], [1, 0, 2], [1, 2, 0], [2, 0, 1], [2, 1, 0]] {
        assert_eq!(drawn(columns), Err(22), "{columns:?}");
    }
}

/// Two upward wires of one bar in one column share a stretch, so 22 never has to order them.
#[test]
fn f27_two_wires_of_a_bar_in_one_column() {
    for columns in [[0, 0, 1], [0, 1, 0], [1, 0, 0], [0, 0, 0]] {
        let wires = columns.map(|column| format!("wire={column},0,1")).join(" ");
        let drawing = format!("rows=2 columns=3 bar=0,0,2 bar=1,0,2 {wires}");
        assert_eq!(answer(P2, &drawing), Err(21), "{columns:?}");
    }
}

#[test]
fn moved_drawings_are_accepted() {
    let random = &mut Random::new(159);
    let (mut wide, mut high) = (0, 0);
    for (sheet, drawing) in drawn_sheets(160) {
        let new = moved(random, &sheet, &drawing);
        assert_eq!(answer_drawn(&sheet, &new), Ok(()), "{sheet:?} {new:?}");
        wide += usize::from(new.columns > 256);
        high += usize::from(new.rows > 128);
    }
    assert!(wide > 100 && high > 100, "{wide} {high}");
}

#[test]
fn bars_one_column_too_long() {
    let random = &mut Random::new(161);
    let mut found = 0;
    for (sheet, drawing) in drawn_sheets(162) {
        let right = moved(random, &sheet, &drawing);
        for drawing in [drawing, right] {
            if let Some(new) = too_long(random, &sheet, &drawing) {
                assert_eq!(answer_drawn(&sheet, &new), Err(21), "{sheet:?} {new:?}");
                found += 1;
            }
        }
    }
    assert!(found > 800, "{found}");
}

/// Top and bottom exchanged: the wires fall, or they rise from bars that aren't theirs.
#[test]
fn upside_down_drawings() {
    for (sheet, drawing) in drawn_sheets(163) {
        assert_eq!(answer_drawn(&sheet, &upside_down(&sheet, &drawing, false)), Err(20));
        assert_eq!(answer_drawn(&sheet, &upside_down(&sheet, &drawing, true)), Err(21));
    }
}

/// What `verify` prints for the given words.
fn verified(words: &str) -> String {
    String::from_utf8(verify(&lines(words))).expect("text")
}

#[test]
fn verify_reads_a_sheet_and_a_drawing() {
    assert_eq!(verified(&format!("{FRESH} {FRESH_DRAWN}")), "accepted\n");
    assert_eq!(verified(&format!("{P4} {P4_DRAWN}")), "accepted\n");
    assert_eq!(verified(&format!("{FRESH} {P4_DRAWN}")), "refused=20\n");
    let short = replaced(P4_DRAWN, 2, "bar=0,0,2");
    assert_eq!(verified(&format!("{P4} {short}")), "refused=21\n");
    let mirrored = "bars=2 wires=3 wire=0,1 wire=0,1 wire=0,1 around=0,2,1 around=0,1,2";
    let p2_drawn = "rows=2 columns=3 bar=0,0,2 bar=1,0,2 wire=2,0,1 wire=0,0,1 wire=1,0,1";
    assert_eq!(verified(&format!("{P2} {p2_drawn}")), "accepted\n");
    assert_eq!(verified(&format!("{mirrored} {p2_drawn}")), "refused=22\n");
    // There are no edit lines: they stand where the drawing should.
    assert_eq!(verified(&format!("{FRESH} in=1")), "refused=20\n");
    assert_eq!(verified(&format!("{FRESH} in=1 {FRESH_DRAWN}")), "refused=20\n");
    assert_eq!(verified(FRESH), "refused=20\n");
}

/// What load refuses. An empty input is the fresh sheet without a drawing; a drawing alone is no sheet.
#[test]
fn verify_refuses_what_load_refuses() {
    assert_eq!(verify(b""), b"refused=20\n");
    assert_eq!(verified(FRESH_DRAWN), "refused=1\n");
    assert_eq!(verify(b"\n"), b"refused=1\n");
    assert_eq!(verified(&format!("bars=129 {FRESH_DRAWN}")), "refused=2\n");
    let twisted = "bars=2 wires=3 wire=0,1 wire=0,1 wire=0,1 around=0,1,2 around=0,1,2";
    assert_eq!(verified(&format!("{twisted} {FRESH_DRAWN}")), "refused=8\n");
    let mut refused = 0;
    for (path, input, output) in examples() {
        if output.starts_with(b"refused=")
            && output.iter().filter(|&&byte| byte == b'\n').count() == 1
        {
            assert_eq!(verify(&input), output, "{}", path.display());
            refused += 1;
        }
    }
    assert_eq!(refused, 7);
}

/// Links are read as `plate` reads them; these can be directed in one way only.
#[test]
fn verify_reads_links() {
    let links = "bars=5 wires=6 link=0,1 link=2,0 link=3,2 link=2,4 link=3,4 link=1,3 around=1,0 \
        around=0,5 around=3,1,2 around=2,5,4 around=4,3";
    let drawn = "rows=5 columns=3 bar=0,0,2 bar=4,0,2 bar=1,0,1 bar=3,0,1 bar=2,1,1 wire=2,0,4 \
        wire=0,0,1 wire=0,1,3 wire=1,1,2 wire=1,2,3 wire=0,3,4";
    assert_eq!(verified(&format!("{links} {drawn}")), "accepted\n");
    assert_eq!(verified(&format!("{links} {}", replaced(drawn, 10, "wire=1,2,3"))), "refused=21\n");
    let hanging = "bars=3 wires=3 link=0,1 link=1,0 link=0,2 around=0,1,2 around=0,1 around=2";
    assert_eq!(verified(&format!("{hanging} {drawn}")), "refused=19\n");
}

/// The lines of the sheet may end in 13 10, those of the drawing may not.
#[test]
fn verify_and_line_ends() {
    let ended = |words: &str| String::from_utf8(lines(words)).expect("text").replace('\n', "\r\n");
    let sheet = [ended(FRESH).into_bytes(), lines(FRESH_DRAWN)].concat();
    assert_eq!(verify(&sheet), b"accepted\n");
    let drawing = [lines(FRESH), ended(FRESH_DRAWN).into_bytes()].concat();
    assert_eq!(verify(&drawing), b"refused=20\n");
    let text = lines(&format!("{FRESH} {FRESH_DRAWN}"));
    assert_eq!(verify(&text[..text.len() - 1]), b"refused=20\n");
}

/// "More than 16,384 bytes" refuses before all else.
#[test]
fn verify_and_long_inputs() {
    let text = lines(&format!("{FRESH} {FRESH_DRAWN}"));
    for (size, expected) in
        [(16_384, "refused=20\n"), (16_385, "refused=18\n"), (70_000, "refused=18\n")]
    {
        let long: Vec<u8> = text.iter().cycle().copied().take(size).collect();
        assert_eq!(verify(&long), expected.as_bytes(), "{size}");
        assert_eq!(verify(&vec![b'x'; size]).starts_with(b"refused=18"), size > 16_384);
    }
    // The longest inputs that can be accepted are well below that.
    let random = &mut Random::new(164);
    for sheet in [parallel(256), path(128)] {
        let drawing = moved(random, &sheet, &draw(&sheet).1);
        let input = [reference::write::sheet_text(&sheet), drawing_text(&sheet, &drawing)].concat();
        assert_eq!(verify(&input), b"accepted\n");
    }
}

#[test]
fn examples_of_drawings() {
    let examples = examples_in("examples/drawings", "drawing");
    assert_eq!(examples.len(), 20);
    for (path, input, expected) in examples {
        assert_eq!(verify(&input), expected, "{}", path.display());
    }
}
