//! A blank file (C-13): "A load of no bytes now yields the fresh sheet with 0 bytes taken. Text of one
//! byte or more is treated as before, so a file of edit lines alone is still refused 1. A list of
//! loads and edits may contain such blank loads, and the no-contact property covers them."

mod common;

use common::{drawing_words, geometry, lines, printed, sheet_of, FRESH, FRESH_DRAWN, P4};
use reference::generate::{grown, likely_edit, mixed_ends, Random, Records};
use reference::{apply, draw, load, plate, put_in, Sheet};

#[test]
fn f9_only_a_text_of_0_bytes() {
    let present = sheet_of(P4);
    for byte in 0..=255 {
        assert_eq!(load(&[byte], &present), (Err(1), present, 0), "{byte}");
        assert_eq!(plate(&[byte]), b"refused=1\n", "{byte}");
    }
    let texts =
        ["\r\n", "\n\n", "  ", "in=1", "in=1\n", "run=0,1,1,0\nout=1\n", "\0\0", "\u{feff}"];
    for text in texts {
        assert_eq!(load(text.as_bytes(), &present), (Err(1), present, 0), "{text:?}");
        assert_eq!(plate(text.as_bytes()), b"refused=1\n", "{text:?}");
    }
    // A byte of any kind before a sheet is not skipped either.
    for byte in [b'\n', b'\r', b' ', 0] {
        assert_eq!(load(&[&[byte], &lines(FRESH)[..]].concat(), &present), (Err(1), present, 0));
    }
}

#[test]
fn f9_plate_prints_the_fresh_drawing() {
    assert_eq!(printed(b""), FRESH_DRAWN);
    assert_eq!(printed(b""), printed(&lines(FRESH)));
}

/// 0 bytes taken is no sign of a refusal: the answer alone tells it.
#[test]
fn f10_accepted_with_0_bytes_taken() {
    for present in Records::new(131).take(500) {
        assert_eq!(load(b"", &present), (Ok(()), Sheet::fresh(), 0));
    }
}

#[test]
fn f11_a_blank_load_replaces_the_present_sheet() {
    let edited = put_in(&sheet_of(P4), 1).1;
    let (answer, sheet, _) = load(b"", &edited);
    assert_eq!((answer, sheet), (Ok(()), Sheet::fresh()));
    assert_eq!(drawing_words(&sheet), FRESH_DRAWN);
    // Edits go on from it as from the fresh sheet, and a load of a sheet after it as after any.
    assert_eq!(put_in(&sheet, 1), put_in(&Sheet::fresh(), 1));
    assert_eq!(load(&lines(P4), &sheet), (Ok(()), sheet_of(P4), lines(P4).len()));
}

#[test]
fn lists_with_blank_loads_are_drawn() {
    let random = &mut Random::new(132);
    let mut blank = 0;
    for _ in 0..300 {
        let mut sheet = Sheet::fresh();
        for _ in 0..random.below(30) {
            let text = match random.below(16) {
                0..=1 => Vec::new(),
                2 => {
                    let (vertices, edges) = (random.between(2, 9), random.between(9, 20));
                    let other = grown(random, vertices, edges);
                    let words = common::sheet_words(&other);
                    mixed_ends(random, &lines(&words))
                }
                _ => {
                    let edit = likely_edit(random, &sheet);
                    sheet = apply(&sheet, edit).1;
                    continue;
                }
            };
            let (answer, after, taken) = load(&text, &sheet);
            assert_eq!((answer, taken), (Ok(()), text.len()));
            assert!(!text.is_empty() || after == Sheet::fresh());
            blank += usize::from(text.is_empty());
            sheet = after;
        }
        let (answer, drawing) = draw(&sheet);
        assert_eq!(answer, Ok(()));
        assert_eq!(geometry::check(&sheet, &drawing), Ok(()));
    }
    assert!(blank > 300, "{blank}");
}
