//! The two loads and write sheet against the reference, on generated and damaged texts and on any records; the buffer is
//! compared byte for byte, what lies past the text included.

mod common;

use common::load_links;
use reference::generate::links::{extreme_links, joined, one_link};
use reference::generate::records::reverse_edge;
use reference::generate::{
    any_links, damaged, damaged_record, extreme_sheets, grown, link_inputs_of_every_size, link_text, mixed_ends, random_sheet, refused_links,
    sheet_text, sheets, special_inputs, special_link_inputs, truncations, Inputs, LinkInputs, LinkTexts, Random, Records,
};
use reference::Sheet;

/// The reference's answer in the form of the proved call.
fn expected_load(text: &[u8], present: &Sheet) -> (u16, Sheet, usize) {
    let (answer, sheet, taken) = reference::load(text, present);
    (answer.map_or_else(u16::from, |()| 0), sheet, taken)
}

/// Compares one load; tells its number.
fn same_load(text: &[u8], present: &Sheet) -> u16 {
    let answer = proved::load(text, present);
    assert!(answer == expected_load(text, present), "load of {:?}", String::from_utf8_lossy(text));
    answer.0
}

#[test]
fn load_agrees_on_fifty_thousand_texts() {
    let random = &mut Random::new(31);
    let presents = [Sheet::fresh(), sheets::parallel(256), damaged_record(random, &sheets::path(128)), Sheet::blank(65_535, usize::MAX)];
    let mut numbers = [0; 9];
    for text in Inputs::new(32).take(6_000) {
        numbers[same_load(&text, &random.pick(&presents)) as usize] += 1;
    }
    for _ in 0..5_000 {
        let sheet = random_sheet(random);
        let text = sheet_text(random, &sheet);
        let text = mixed_ends(random, &text);
        numbers[same_load(&text, &presents[0]) as usize] += 1;
        for _ in 0..8 {
            let present = random.pick(&presents);
            numbers[same_load(&damaged(random, &text), &present) as usize] += 1;
        }
    }
    assert!(numbers.iter().all(|&n| n > 20), "acceptance and every refusal of load occur: {numbers:?}");
    assert!(numbers.iter().sum::<i32>() > 50_000);
}

#[test]
fn load_agrees_on_special_and_extreme_texts() {
    let random = &mut Random::new(33);
    let present = sheets::path(3);
    for text in special_inputs() {
        same_load(&text, &present);
    }
    for sheet in extreme_sheets(random) {
        let text = sheet_text(random, &sheet);
        assert_eq!(same_load(&text, &present), 0, "{} bars, {} wires", sheet.vertices, sheet.edges);
        same_load(&text[..text.len() - 1], &present);
    }
    for text in truncations(&sheet_text(random, &sheets::path(5))) {
        same_load(text, &present);
    }
    for text in [b"".as_slice(), b"\n", b"\r\n", b" ", b"in=1\n", b"bars=2", b"\xff\xfe\n", b"bars=128\n", b"bars=129\n", b"bars=1\n", b"bars=02\n", b"bars=2\nwires=257\n"] {
        same_load(text, &present);
    }
    assert_eq!(proved::load(b"bars=129\n", &present).0, 2);
    assert_eq!(proved::load(b"bars=02\n", &present).0, 1);
}

#[test]
fn a_load_of_no_bytes_yields_the_fresh_sheet() {
    for present in Records::new(38).take(3_000) {
        same_load(b"", &present);
        assert!(proved::load(b"", &present) == (0, Sheet::fresh(), 0), "accepted, 0 bytes taken, whatever the present sheet");
    }
}

#[test]
fn texts_of_one_or_two_bytes_are_refused_1() {
    let present = sheets::path(3);
    for byte in 0..=u8::MAX {
        assert_eq!(same_load(&[byte], &present), 1, "a text of the one byte {byte}");
        for second in 0..=u8::MAX {
            assert_eq!(same_load(&[byte, second], &present), 1, "a text of the bytes {byte} and {second}");
        }
    }
}

/// Compares one write; tells its number. The buffer holds other bytes first.
fn same_write(sheet: &Sheet, room: usize) -> u16 {
    let before: Vec<u8> = (0..room).map(|i| (i * 7 + 3) as u8).collect();
    let (mut ours, mut theirs) = (before.clone(), before);
    let (number, count) = proved::write_sheet(sheet, &mut ours);
    let (answer, expected) = reference::write_sheet(sheet, &mut theirs);
    assert_eq!((number, count), (answer.map_or_else(u16::from, |()| 0), expected), "{} bars, {} wires, room {room}", sheet.vertices, sheet.edges);
    assert!(ours == theirs, "the buffer of {} bars and {} wires with room {room}", sheet.vertices, sheet.edges);
    number
}

#[test]
fn write_sheet_agrees_on_sheets_and_buffers() {
    let random = &mut Random::new(34);
    let mut refused = 0;
    let mut sheets_seen = extreme_sheets(random);
    sheets_seen.extend((0..3_000).map(|_| random_sheet(random)));
    for sheet in &sheets_seen {
        let length = reference::write::sheet_text(sheet).len();
        for room in [length, length + 1, length - 1, length + 5_000, random.below(length)] {
            refused += i32::from(same_write(sheet, room) == 17);
        }
        assert_eq!(same_write(sheet, length), 0, "a buffer as long as the text is long enough");
        assert_eq!(same_write(sheet, length - 1), 17, "one byte less is not");
    }
    assert!(refused > 3_000);
    same_write(&Sheet::fresh(), 0);
}

#[test]
fn write_sheet_refuses_records_that_are_not_sound() {
    let mut refused = 0;
    for sheet in Records::new(35).take(3_000) {
        for room in [0, 16_384] {
            refused += i32::from(same_write(&sheet, room) == 9);
        }
    }
    assert!(refused > 1_000, "{refused}");
}

#[test]
fn a_written_sheet_reads_back() {
    let random = &mut Random::new(36);
    let mut buffer = vec![0; 16_384];
    for _ in 0..3_000 {
        let sheet = random_sheet(random);
        let (number, count) = proved::write_sheet(&sheet, &mut buffer);
        assert_eq!(number, 0);
        assert!(proved::load(&buffer[..count], &Sheet::fresh()) == (0, sheet, count));
        assert!(proved::load(&buffer, &Sheet::fresh()) == (0, sheet, count), "whatever follows");
        assert!(!buffer[..count].contains(&13), "written text keeps the single 10");
        let mixed = mixed_ends(random, &buffer[..count]);
        assert!(proved::load(&mixed, &Sheet::fresh()) == (0, sheet, mixed.len()), "with both line ends");
    }
}

#[test]
fn load_agrees_with_a_13_at_every_place() {
    let random = &mut Random::new(37);
    let present = sheets::path(3);
    let (mut accepted, mut refused) = (0, 0);
    for sheet in [Sheet::fresh(), sheets::path(5), sheets::parallel(7)] {
        let text = sheet_text(random, &sheet);
        for text in [mixed_ends(random, &text), text] {
            for at in 0..=text.len() {
                for stray in [b"\r".as_slice(), b"\r\r", b"\r\n", b"\n\r"] {
                    let number = same_load(&[&text[..at], stray, &text[at..]].concat(), &present);
                    accepted += i32::from(number == 0);
                    refused += i32::from(number == 1);
                }
            }
        }
    }
    assert!(accepted > 30 && refused > 2_000, "{accepted} {refused}");
}

/// Compares one load of links, which must be permitted; tells its number.
fn same_links(text: &[u8], present: &Sheet) -> usize {
    load_links(text, present).0.map_or_else(usize::from, |()| 0)
}

/// The text with a damage in its first two lines, as far as it has them.
fn damaged_head(random: &mut Random, text: &[u8]) -> Vec<u8> {
    let lines: Vec<&[u8]> = text.split_inclusive(|&byte| byte == b'\n').collect();
    let (head, rest) = lines.split_at(lines.len().min(2));
    [damaged(random, &head.concat()), rest.concat()].concat()
}

#[test]
fn load_of_links_agrees_on_fifty_thousand_texts() {
    let random = &mut Random::new(81);
    let presents = [Sheet::fresh(), sheets::parallel(256), damaged_record(random, &sheets::path(128)), Sheet::blank(65_535, usize::MAX)];
    let mut numbers = [0; 20];
    for text in LinkTexts::new(82).take(10_000) {
        numbers[same_links(&text, &random.pick(&presents))] += 1;
    }
    for input in LinkInputs::new(83).take(4_000) {
        numbers[same_links(&input, &random.pick(&presents))] += 1;
    }
    for _ in 0..4_000 {
        let sheet = random_sheet(random);
        let text = any_links(random, &sheet);
        numbers[same_links(&text, &presents[0])] += 1;
        for _ in 0..6 {
            let present = random.pick(&presents);
            numbers[same_links(&damaged(random, &text), &present)] += 1;
        }
        for _ in 0..2 {
            let present = random.pick(&presents);
            numbers[same_links(&damaged_head(random, &text), &present)] += 1;
        }
    }
    assert_eq!(numbers.iter().sum::<usize>(), 50_000);
    assert_eq!(numbers[6] + numbers[7], 0, "no load of links is refused 6 or 7: {numbers:?}");
    for number in [0, 1, 2, 3, 4, 5, 8, 19] {
        assert!(numbers[number] > 300, "answer {number}: {numbers:?}");
    }
}

#[test]
fn load_of_links_agrees_on_special_and_extreme_texts() {
    let random = &mut Random::new(84);
    let present = sheets::path(3);
    let mut numbers = [0; 20];
    for text in special_link_inputs() {
        numbers[same_links(&text, &present)] += 1;
    }
    for text in link_inputs_of_every_size(random) {
        assert_eq!(same_links(&text, &present), 0, "{:?}", String::from_utf8_lossy(&text));
    }
    for links in extreme_links(random) {
        let text = link_text(random, &links);
        let number = same_links(&text, &present);
        numbers[number] += 1;
        assert_eq!(same_links(&text[..text.len() - 1], &present), 1, "without its last byte");
        assert_eq!(same_links(&mixed_ends(random, &text), &present), number, "with both line ends");
    }
    for sheet in extreme_sheets(random) {
        assert_eq!(same_links(&link_text(random, &sheet), &present), 0, "{} bars, {} wires", sheet.vertices, sheet.edges);
    }
    assert!(numbers[0] > 100 && numbers[1] > 100 && numbers[2] > 20 && numbers[8] > 2 && numbers[19] > 20, "{numbers:?}");
}

#[test]
fn load_of_links_agrees_on_front_parts() {
    let random = &mut Random::new(85);
    let present = sheets::parallel(4);
    let mut numbers = [0; 20];
    for sheet in [Sheet::fresh(), sheets::path(5), sheets::parallel(12), grown(random, 9, 14)] {
        let hanging = joined(random, &sheet, &one_link());
        for links in [sheet, hanging] {
            let text = link_text(random, &links);
            for front in truncations(&mixed_ends(random, &text)) {
                numbers[same_links(front, &present)] += 1;
            }
        }
    }
    assert!(numbers[0] > 4 && numbers[1] > 400 && numbers[19] == 4, "{numbers:?}");
    for text in LinkTexts::new(95).take(6_000) {
        same_links(&text[..random.below(text.len() + 1)], &present);
    }
}

#[test]
fn each_refusal_after_the_last_line_of_links_agrees() {
    let random = &mut Random::new(86);
    let mut numbers = [0; 20];
    for present in Records::new(87).take(2_000) {
        let sheet = random_sheet(random);
        for refusal in [5, 8, 19] {
            if let Some(links) = refused_links(random, &sheet, refusal) {
                let text = link_text(random, &links);
                let number = same_links(&mixed_ends(random, &text), &present);
                assert_eq!(number, usize::from(refusal));
                numbers[number] += 1;
            }
        }
    }
    assert!([5, 8, 19].iter().all(|&number| numbers[number] > 500), "{numbers:?}");
}

#[test]
fn links_with_several_faults_are_refused_by_the_first() {
    let random = &mut Random::new(96);
    let present = sheets::path(3);
    let mut several = 0;
    for _ in 0..1_500 {
        let sheet = random_sheet(random);
        let Some(twisted) = refused_links(random, &sheet, 8).filter(|links| links.vertices < 128 && links.edges < 256) else {
            continue;
        };
        let hanging = joined(random, &twisted, &one_link());
        for (links, number) in [(twisted, 8), (hanging, 19), (reverse_edge(&twisted, 0), 5), (reverse_edge(&hanging, 0), 5)] {
            assert_eq!(same_links(&link_text(random, &links), &present), number, "{links:?}");
        }
        several += 1;
    }
    assert!(several > 500, "{several}");
}

#[test]
fn each_load_refuses_the_lines_of_the_other() {
    let random = &mut Random::new(88);
    let present = sheets::path(4);
    for _ in 0..2_000 {
        let sheet = random_sheet(random);
        let (wires, links) = (sheet_text(random, &sheet), link_text(random, &sheet));
        assert_eq!((same_load(&wires, &present), same_links(&links, &present)), (0, 0));
        assert_eq!((same_load(&links, &present), same_links(&wires, &present)), (1, 1));
    }
    for text in Inputs::new(89).take(2_000) {
        let number = same_links(&text, &present);
        assert!(number <= 2, "{number}: a text of wires is refused 1 or 2, or of no bytes and accepted");
    }
    for text in LinkTexts::new(90).take(2_000) {
        same_load(&text, &present);
    }
}

#[test]
fn a_load_of_links_of_no_bytes_yields_the_fresh_sheet() {
    for present in Records::new(91).take(3_000) {
        assert_eq!(same_links(b"", &present), 0);
        assert!(proved::load_links(b"", &present) == (0, Sheet::fresh(), 0), "accepted, 0 bytes taken, whatever the present sheet");
    }
}

#[test]
fn links_of_one_or_two_bytes_are_refused_1() {
    let present = sheets::path(3);
    for byte in 0..=u8::MAX {
        assert_eq!(same_links(&[byte], &present), 1, "a text of the one byte {byte}");
        for second in 0..=u8::MAX {
            assert_eq!(same_links(&[byte, second], &present), 1, "a text of the bytes {byte} and {second}");
        }
    }
}

#[test]
fn a_sheet_that_came_from_links_reads_back() {
    let random = &mut Random::new(92);
    let mut buffer = vec![0; 16_384];
    let (mut read, mut others) = (0, 0);
    for text in LinkTexts::new(93).take(6_000) {
        let (answer, sheet, _) = load_links(&text, &Sheet::fresh());
        if answer.is_err() {
            continue;
        }
        let (number, count) = proved::write_sheet(&sheet, &mut buffer);
        assert_eq!(number, 0);
        assert!(buffer[..count] == reference::write::sheet_text(&sheet), "with lines of wires");
        assert!(proved::load(&buffer[..count], &Sheet::fresh()) == (0, sheet, count));
        let mixed = mixed_ends(random, &buffer[..count]);
        assert!(proved::load(&mixed, &Sheet::fresh()) == (0, sheet, mixed.len()), "with both line ends");
        read += 1;
        others += usize::from(sheet != reference::load_links(&text, &Sheet::fresh()).1);
    }
    assert!(read > 2_000 && others > 500, "{read} sheets, and in {others} of them the directions are not those of the reference");
}

#[test]
fn load_of_links_agrees_with_a_13_at_every_place() {
    let random = &mut Random::new(94);
    let present = sheets::path(3);
    let (mut accepted, mut refused) = (0, 0);
    for sheet in [Sheet::fresh(), sheets::path(5), sheets::parallel(7)] {
        let text = link_text(random, &sheet);
        for text in [mixed_ends(random, &text), text] {
            for at in 0..=text.len() {
                for stray in [b"\r".as_slice(), b"\r\r", b"\r\n", b"\n\r"] {
                    let number = same_links(&[&text[..at], stray, &text[at..]].concat(), &present);
                    accepted += i32::from(number == 0);
                    refused += i32::from(number == 1);
                }
            }
        }
    }
    assert!(accepted > 30 && refused > 2_000, "{accepted} {refused}");
}
