//! The table of faces against the reference, which finds it without a trace: the answer and all 512 entries.

mod common;

use common::sheets::{over_any_counts, over_edits, over_examples, over_extremes, over_records};
use reference::generate::sheets;
use reference::Sheet;

/// Compares one record; tells how many faces it has, or `None` where it is refused.
fn same_faces(sheet: &Sheet, what: &str) -> Option<usize> {
    let (answer, expected) = reference::trace_faces(sheet);
    let (number, table) = proved::trace_faces(sheet);
    assert_eq!(number, answer.map_or_else(u16::from, |()| 0), "{what}: {} bars, {} wires", sheet.vertices, sheet.edges);
    assert!(table == expected, "{what}, {} bars, {} wires: {table:?}", sheet.vertices, sheet.edges);
    answer.ok().map(|()| 1 + usize::from(table.into_iter().max().expect("512 entries")))
}

#[test]
fn faces_agree_on_a_hundred_thousand_records() {
    let sizes = over_records(81, 12_000, 4, 64, same_faces);
    assert!(sizes.refused > 10_000 && sizes.few > 3_000 && sizes.some > 10_000 && sizes.many > 3_000, "{sizes:?}");
}

#[test]
fn faces_of_the_extremes() {
    let long = sheets::path(128);
    assert_eq!(same_faces(&Sheet::fresh(), "the fresh sheet"), Some(2));
    assert_eq!(same_faces(&sheets::parallel(256), "parallel wires"), Some(256));
    assert_eq!(same_faces(&long, "a path"), Some(2));
    assert_eq!(same_faces(&sheets::backward(&long), "a path backward"), Some(2));
    over_extremes(83, 100, same_faces, |n| 258 - n);
}

#[test]
fn faces_of_records_with_any_counts() {
    over_any_counts(same_faces);
}

#[test]
fn faces_agree_along_lists_of_edits() {
    let faces = |sheet: &Sheet| sheet.edges + 2 - sheet.vertices;
    let (accepted, changed) = over_edits(84, same_faces, faces, |sheet| proved::trace_faces(sheet).1);
    assert!(accepted > 8_000 && changed > 8_000, "{changed} of {accepted}");
}

#[test]
fn faces_of_the_examples() {
    over_examples(same_faces);
}
