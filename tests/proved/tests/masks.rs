//! The insulation mask against the reference, which reads it off the drawing and counts in halves: the answer and the whole
//! record, each float bit for bit. Of every mask that the call returns, each float is a whole number of halves, and in these
//! numbers it meets the plate where it may and nowhere else, over every pair of segments.

mod common;

use common::sheets::{over_any_counts, over_edits, over_examples, over_extremes, over_records};
use reference::generate::sheets;
use reference::mask::halves;
use reference::{check_insulation, draw, Frame, Sheet};

/// Compares one record; tells how many segments its mask has, or `None` where it is refused.
fn same_mask(sheet: &Sheet, what: &str) -> Option<usize> {
    let (answer, expected) = reference::insulation_mask(sheet);
    let (number, mask) = proved::insulation_mask(sheet);
    let (n, m) = (sheet.vertices, sheet.edges);
    assert_eq!(number, answer.map_or_else(u16::from, |()| 0), "{what}: {n} bars, {m} wires");
    assert!(mask.map(f32::to_bits) == expected.map(f32::to_bits), "{what}, {n} bars, {m} wires: {mask:?}");
    let whole = mask.map(|float| halves(float).unwrap_or_else(|| panic!("{what}, {n} bars, {m} wires: {float}")));
    answer.ok().map(|()| {
        let found = check_insulation(sheet, &draw(sheet).1, whole.used());
        assert_eq!(found, Ok(()), "{what}, {n} bars, {m} wires: {:?}", mask.used());
        mask.count
    })
}

#[test]
fn masks_agree_on_sixty_thousand_records() {
    let sizes = over_records(191, 7_000, 10, 100, same_mask);
    assert!(sizes.refused > 30_000 && sizes.few > 4_000 && sizes.some > 6_000 && sizes.many > 3_000, "{sizes:?}");
}

#[test]
fn masks_of_the_extremes() {
    let long = sheets::path(128);
    assert_eq!(same_mask(&Sheet::fresh(), "the fresh sheet"), Some(3));
    assert_eq!(same_mask(&sheets::parallel(256), "parallel wires"), Some(511));
    assert_eq!(same_mask(&long, "a path"), Some(2 + 127));
    assert_eq!(same_mask(&sheets::backward(&long), "a path backward"), Some(2 + 127));
    over_extremes(193, 50, same_mask, |n| 258 - n + 255);
}

/// The frame of the widest sheet, of the highest one, and of one that is refused.
#[test]
fn frames_of_the_extremes() {
    let bounds = |sheet: &Sheet| {
        let Frame { least_x, greatest_x, least_y, greatest_y } = proved::insulation_mask(sheet).1.frame;
        [least_x, greatest_x, least_y, greatest_y]
    };
    assert_eq!(bounds(&sheets::parallel(256)), [-0.5, 254.5, 0.5, 0.5]);
    assert_eq!(bounds(&sheets::path(128)), [-0.5, 0.5, 0.5, 126.5]);
    assert_eq!(bounds(&Sheet::blank(2, 2)), [0.0; 4]);
}

#[test]
fn masks_of_records_with_any_counts() {
    over_any_counts(same_mask);
}

/// An accepted edit always changes the number of segments.
#[test]
fn masks_agree_along_lists_of_edits() {
    let segments = |sheet: &Sheet| 2 * sheet.edges + 1 - sheet.vertices;
    let (accepted, changed) = over_edits(194, same_mask, segments, |sheet| proved::insulation_mask(sheet).1);
    assert!(accepted > 8_000);
    assert_eq!(changed, accepted);
}

#[test]
fn masks_of_the_examples() {
    over_examples(same_mask);
}
