//! The check of a drawing's text against the reference, which compares every pair of segments in exact fractions.

mod common;

use common::process::examples;
use common::Seen;
use reference::generate::drawings::{
    mirror_image, moved, other_bytes, other_outer_face, small_drawings, too_long, totals, upside_down,
};
use reference::generate::{
    any_drawing, any_edit, damaged, damaged_record, extreme_sheets, likely_edit, random_sheet, Drawings, Random, Records,
};
use reference::write::{drawing_text, sheet_text};
use reference::{draw, Drawing, Sheet};

/// The text of a sheet, or the counts of a record that is none.
fn shown(sheet: &Sheet) -> String {
    if reference::is_sound(sheet) {
        format!("{:?}", String::from_utf8_lossy(&sheet_text(sheet)))
    } else {
        format!("{} bars, {} wires", sheet.vertices, sheet.edges)
    }
}

/// Compares one answer; tells it.
fn same_answer(sheet: &Sheet, text: &[u8]) -> usize {
    let expected = reference::check_drawing(sheet, text).map_or_else(usize::from, |()| 0);
    assert_eq!(usize::from(proved::check_drawing(sheet, text)), expected, "{:?} of {}", String::from_utf8_lossy(text), shown(sheet));
    expected
}

#[test]
fn answers_agree_on_seventy_thousand_drawings() {
    let random = &mut Random::new(171);
    let mut seen = Seen::default();
    for (sheet, text) in Drawings::new(172).take(7_000) {
        seen.count(same_answer(&sheet, &text));
        for _ in 0..6 {
            seen.count(same_answer(&sheet, &any_drawing(random, &sheet)));
        }
        let text = any_drawing(random, &sheet);
        for _ in 0..2 {
            seen.count(same_answer(&sheet, &damaged(random, &text)));
        }
        seen.count(same_answer(&damaged_record(random, &sheet), &text));
    }
    assert_eq!(seen.all(), 70_000);
    seen.at_least(&[(0, 18_000), (9, 4_500), (20, 22_000), (21, 9_000), (22, 3_500)]);
}

#[test]
fn answers_on_the_extremes() {
    let random = &mut Random::new(173);
    let mut seen = Seen::default();
    for sheet in extreme_sheets(random) {
        let own = draw(&sheet).1;
        assert_eq!(same_answer(&sheet, &drawing_text(&sheet, &own)), 0);
        for _ in 0..10 {
            let right = moved(random, &sheet, &own);
            assert_eq!(same_answer(&sheet, &drawing_text(&sheet, &right)), 0);
            if let Some(wrong) = too_long(random, &sheet, &right) {
                assert_eq!(same_answer(&sheet, &drawing_text(&sheet, &wrong)), 21);
            }
            for _ in 0..10 {
                seen.count(same_answer(&sheet, &any_drawing(random, &sheet)));
            }
        }
    }
    seen.at_least(&[(0, 2_200), (20, 1_300), (21, 800), (22, 400)]);
}

/// Left and right exchanged, top and bottom exchanged, wire 0 at the left edge, and the totals of C-19 behind the last line.
#[test]
fn answers_on_turned_drawings() {
    let random = &mut Random::new(174);
    let mut mirrored = 0;
    for _ in 0..2_000 {
        let sheet = random_sheet(random);
        let own = draw(&sheet).1;
        let answer = |drawing: &Drawing| same_answer(&sheet, &drawing_text(&sheet, drawing));
        mirrored += usize::from(answer(&mirror_image(&sheet, &own)) == 22);
        assert_eq!(answer(&upside_down(&sheet, &own, false)), 20);
        assert_eq!(answer(&upside_down(&sheet, &own, true)), 21);
        assert_eq!(answer(&other_outer_face(&sheet, &own).expect("wire 0")), 0);
        let with_totals = [drawing_text(&sheet, &own), totals(&sheet, &own)].concat();
        assert_eq!(same_answer(&sheet, &with_totals), 20);
    }
    assert!(mirrored > 1_000, "{mirrored}");
}

/// The drawing that write drawing gives is accepted for its sheet after every edit; that of the sheet before the edit is now
/// and then accepted too.
#[test]
fn own_drawings_are_accepted_along_lists_of_edits() {
    let random = &mut Random::new(175);
    let (mut buffer, mut own, mut seen) = (vec![0; 8192], 0, Seen::default());
    for list in 0..400 {
        let mut sheet = if list % 3 == 0 { Sheet::fresh() } else { random_sheet(random) };
        for _ in 0..60 {
            let edit = if random.one_in(4) { any_edit(random, &sheet) } else { likely_edit(random, &sheet) };
            let (number, count) = proved::write_drawing(&sheet, &mut buffer);
            assert_eq!(number, 0);
            sheet = proved::edit(&sheet, edit).1;
            seen.count(same_answer(&sheet, &buffer[..count]));
            let (number, count) = proved::write_drawing(&sheet, &mut buffer);
            assert_eq!((number, proved::check_drawing(&sheet, &buffer[..count])), (0, 0), "{}", shown(&sheet));
            own += 1;
        }
    }
    assert_eq!(own, 24_000);
    seen.at_least(&[(0, 9_000), (20, 10_000)]);
}

/// A sheet that is not sound is refused 9, whatever the text is.
#[test]
fn answers_on_records() {
    let random = &mut Random::new(176);
    let (mut sound, mut refused) = (0, 0);
    let fresh = drawing_text(&Sheet::fresh(), &draw(&Sheet::fresh()).1);
    for record in Records::new(177).take(4_000) {
        let text = if reference::is_sound(&record) { any_drawing(random, &record) } else { fresh.clone() };
        match same_answer(&record, &text) {
            9 => refused += 1,
            _ => sound += 1,
        }
    }
    assert!(sound > 400 && refused > 2_000, "{sound} {refused}");
    let counts = [0, 1, 2, 3, 128, 129, 256, 257, 512, 65_535, 65_536, 1 << 32, usize::MAX / 2, usize::MAX];
    for vertices in counts {
        for edges in counts {
            let sheet = Sheet { vertices, edges, ..Sheet::fresh() };
            let expected = if (vertices, edges) == (2, 2) { 0 } else { 9 };
            assert_eq!(same_answer(&sheet, &fresh), expected);
        }
    }
}

/// Every byte put in at every place of the drawing of the fresh sheet, and in place of every byte; then the same of longer
/// texts at some places.
#[test]
fn answers_on_texts_with_another_byte() {
    let fresh = Sheet::fresh();
    let text = drawing_text(&fresh, &draw(&fresh).1);
    let mut seen = Seen::default();
    for new in other_bytes(&text, 0..=u8::MAX) {
        seen.count(same_answer(&fresh, &new));
    }
    // The byte that is there; 3 to 9 for one of the two numbers declared, 12 to 92, and 20 to 29.
    assert_eq!((seen.0[0], seen.0[21]), (text.len() + 2 * (7 + 9 + 10), 2 * (3 + 1)));
    let random = &mut Random::new(178);
    for _ in 0..1_000 {
        let sheet = random_sheet(random);
        let text = drawing_text(&sheet, &draw(&sheet).1);
        for _ in 0..4 {
            let (at, byte) = (random.below(text.len()), random.word() as u8);
            seen.count(same_answer(&sheet, &[&text[..at], &[byte], &text[at + random.below(2)..]].concat()));
            seen.count(same_answer(&sheet, &text[..at]));
        }
        seen.count(same_answer(&sheet, &[&text[..], b"\n"].concat()));
    }
    seen.at_least(&[(20, 30_000 + 5_000)]);
}

/// Every drawing of the fresh sheet within three rows and three columns.
#[test]
fn answers_on_every_small_drawing_of_the_fresh_sheet() {
    let fresh = Sheet::fresh();
    let mut seen = Seen::default();
    for drawing in small_drawings() {
        seen.count(same_answer(&fresh, &drawing_text(&fresh, &drawing)));
    }
    // Bar 0 below bar 1 in 3 ways, the wires in two columns in either order, and the bars over both columns: 4 ways for columns
    // 0 and 1, 4 for columns 1 and 2, one for 0 and 2.
    assert_eq!((seen.0[0], seen.all()), (3 * 2 * (4 + 4 + 1), 3usize.pow(12)));
}

/// Texts far longer than any drawing, and of no bytes.
#[test]
fn answers_on_long_texts() {
    let random = &mut Random::new(179);
    for sheet in extreme_sheets(random) {
        let text = drawing_text(&sheet, &moved(random, &sheet, &draw(&sheet).1));
        for length in [65_535, 65_536, 65_537, 200_000] {
            let long: Vec<u8> = text.iter().cycle().copied().take(length).collect();
            assert_eq!(same_answer(&sheet, &long), 20);
        }
        let (front, back) = text.split_at(5);
        for digits in [9, 20, 65_536] {
            assert_eq!(same_answer(&sheet, &[front, &vec![b'1'; digits], back].concat()), 20);
        }
        assert_eq!(same_answer(&sheet, b""), 20);
    }
}

/// The drawings of the examples of `verify`, with the answers beside them.
#[test]
fn answers_on_the_examples() {
    let examples = examples("examples/drawings", "drawing");
    assert_eq!(examples.len(), 20);
    let mut checked = 0;
    for (path, input, output) in examples {
        let (answer, sheet, taken) = reference::plate::load_input(&input, common::load_links);
        if answer.is_err() {
            continue;
        }
        let number = proved::check_drawing(&sheet, &input[taken..]);
        let expected = if number == 0 { "accepted\n".to_string() } else { format!("refused={number}\n") };
        assert_eq!(expected.as_bytes(), output, "{}", path.display());
        checked += 1;
    }
    assert_eq!(checked, 18);
}
