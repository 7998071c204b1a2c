//! Lists of loads and edits, and the drawing after them, compared with the reference. After a load of links the reference
//! goes on from the sheet of the proved one, which it permits.

mod common;

use reference::generate::edits::{any_edit, likely_edit, refused_edit};
use reference::generate::links::any_links;
use reference::generate::records::Records;
use reference::generate::sheets::{extreme_sheets, random_sheet};
use reference::generate::texts::{damaged, mixed_ends, sheet_text};
use reference::generate::Random;
use reference::{Edit, Sheet};

/// Compares one edit, answer and whole record; tells its number and the sheet afterwards.
fn same_edit(sheet: &Sheet, edit: Edit) -> (u16, Sheet) {
    let (answer, expected) = reference::apply(sheet, edit);
    let (number, after) = proved::edit(sheet, edit);
    assert_eq!(number, answer.map_or_else(u16::from, |()| 0), "{edit:?} on {} bars, {} wires", sheet.vertices, sheet.edges);
    assert!(after == expected, "the sheet after {edit:?} on {} bars, {} wires", sheet.vertices, sheet.edges);
    (number, after)
}

/// Compares the drawing's text in a buffer that holds other bytes first; tells the number.
fn same_drawing(sheet: &Sheet, room: usize) -> u16 {
    let before: Vec<u8> = (0..room).map(|i| (i * 11 + 5) as u8).collect();
    let (mut ours, mut theirs) = (before.clone(), before);
    let (number, count) = proved::write_drawing(sheet, &mut ours);
    let (answer, expected) = reference::write_drawing(sheet, &mut theirs);
    assert_eq!((number, count), (answer.map_or_else(u16::from, |()| 0), expected), "{} bars, {} wires, room {room}", sheet.vertices, sheet.edges);
    assert!(ours == theirs, "the drawing of {} bars and {} wires with room {room}", sheet.vertices, sheet.edges);
    number
}

/// The text as it is, damaged, or no bytes.
fn any_text(random: &mut Random, text: Vec<u8>) -> Vec<u8> {
    match random.below(8) {
        0 => Vec::new(),
        1..=4 => damaged(random, &text),
        _ => text,
    }
}

#[test]
fn lists_of_loads_and_edits_agree() {
    let random = &mut Random::new(41);
    let (mut seen, mut blank, mut links) = ([0usize; 20], [0; 2], [0usize; 20]);
    for list in 0..600 {
        let mut sheet = if list % 3 == 0 { Sheet::fresh() } else { random_sheet(random) };
        for step in 0..80 {
            let number = match random.below(20) {
                0 => {
                    let loaded = random_sheet(random);
                    let text = sheet_text(random, &loaded);
                    let text = mixed_ends(random, &text);
                    let text = any_text(random, text);
                    blank[0] += usize::from(text.is_empty());
                    let (answer, expected, taken) = reference::load(&text, &sheet);
                    let ours = proved::load(&text, &sheet);
                    assert!(ours == (answer.map_or_else(u16::from, |()| 0), expected, taken), "load in list {list}");
                    sheet = ours.1;
                    ours.0
                }
                1 => {
                    let loaded = random_sheet(random);
                    let text = any_links(random, &loaded);
                    let text = any_text(random, text);
                    blank[1] += usize::from(text.is_empty());
                    let (answer, after, _) = common::load_links(&text, &sheet);
                    let number = answer.map_or_else(u16::from, |()| 0);
                    links[usize::from(number)] += 1;
                    sheet = after;
                    number
                }
                n => {
                    let edit = if n < 12 { likely_edit(random, &sheet) } else { any_edit(random, &sheet) };
                    let (number, after) = same_edit(&sheet, edit);
                    sheet = after;
                    number
                }
            };
            seen[usize::from(number)] += 1;
            if step % 16 == 15 {
                assert_eq!(same_drawing(&sheet, 16_384), 0, "list {list}: every list leaves a sheet that has its drawing");
            }
        }
    }
    assert!(seen[0] > 10_000 && blank.iter().all(|&blank| blank > 100), "{seen:?} {blank:?}");
    assert!(links[0] > blank[1] + 500 && links[1] > 200 && links[5] > 20 && links[8] > 20 && links[19] > 20, "{links:?}");
    for number in [10, 11, 12, 13, 14, 15, 16] {
        assert!(seen[number] > 50, "refusal {number}: {seen:?}");
    }
}

#[test]
fn each_refusal_of_an_edit_agrees() {
    let random = &mut Random::new(42);
    let mut seen = [0usize; 19];
    for _ in 0..3_000 {
        let sheet = random_sheet(random);
        for refusal in 10..=16 {
            if let Some(edit) = refused_edit(random, &sheet, refusal) {
                seen[usize::from(same_edit(&sheet, edit).0)] += 1;
            }
        }
    }
    for number in [10, 12, 13, 14, 15, 16] {
        assert!(seen[number] > 500, "refusal {number}: {seen:?}");
    }
}

#[test]
fn edits_agree_on_extremes_and_any_numbers() {
    let random = &mut Random::new(43);
    let numbers = [0, 1, 2, 127, 128, 255, 256, 511, 512, 65_535, 65_536, usize::MAX];
    for sheet in extreme_sheets(random) {
        for &a in &numbers {
            same_edit(&sheet, Edit::In(a));
            same_edit(&sheet, Edit::Out(a));
            same_edit(&sheet, Edit::Off(a));
            for &p in &numbers {
                same_edit(&sheet, Edit::Run(a, p, random.pick(&numbers), random.pick(&numbers)));
                same_edit(&sheet, Edit::Run(random.pick(&numbers), random.pick(&numbers), a, p));
            }
        }
        for _ in 0..200 {
            let edit = any_edit(random, &sheet);
            same_edit(&sheet, edit);
        }
    }
}

#[test]
fn an_edit_of_another_kind_is_refused() {
    let random = &mut Random::new(47);
    let path = reference::generate::sheets::path(5);
    let off = reference::apply(&path, Edit::Off(4));
    assert_eq!(off.0, Ok(()));
    assert!(proved::edit_by_kind(&path, 3, [4, 0, 0, 0]) == (0, off.1), "kind 3 is off");
    let records = [path, Sheet::fresh(), random_sheet(random), Sheet::blank(77, usize::MAX)];
    for kind in 4..=u16::MAX {
        let (sheet, numbers) = (random.pick(&records), [random.below(6), random.below(6), random.below(6), random.below(6)]);
        assert!(proved::edit_by_kind(&sheet, kind, numbers) == (1, sheet), "kind {kind} is refused 1 and changes nothing");
    }
}

#[test]
fn edits_and_drawings_refuse_records_that_are_not_sound() {
    let random = &mut Random::new(44);
    let mut refused = 0;
    for sheet in Records::new(45).take(4_000) {
        for edit in [Edit::In(1), Edit::Out(1), Edit::Off(2), Edit::Run(0, 0, 1, 0), Edit::Run(random.below(4), 1, 1, random.below(4))] {
            refused += i32::from(same_edit(&sheet, edit).0 == 9);
        }
        for room in [0, 16_384] {
            refused += i32::from(same_drawing(&sheet, room) == 9);
        }
    }
    assert!(refused > 5_000, "{refused}");
}

#[test]
fn drawings_agree_on_sheets_and_buffers() {
    let random = &mut Random::new(46);
    let mut sheets = extreme_sheets(random);
    sheets.extend((0..3_000).map(|_| random_sheet(random)));
    for sheet in &sheets {
        let (_, drawing) = reference::draw(sheet);
        let length = reference::write::drawing_text(sheet, &drawing).len();
        assert_eq!(same_drawing(sheet, length), 0, "a buffer as long as the text is long enough");
        assert_eq!(same_drawing(sheet, length - 1), 17, "one byte less is not");
        for room in [0, length + 1, length + 3_000, random.below(length)] {
            same_drawing(sheet, room);
        }
    }
}
