//! Round trips, the generator's sequences, and the program itself.

mod common;

use std::collections::BTreeSet;
use std::io::Write;
use std::process::{Command, Stdio};

use reference::generate::{
    edit_text, extreme_sheets, inputs::padded, random_sheet, refused_edit, refused_links,
    refused_sheet, sheet_text, special_inputs, special_link_inputs, truncations, Inputs,
    LinkInputs, LinkTexts, Random, Records,
};
use reference::{load, plate, read_edit, write_drawing, write_sheet, Sheet};

fn written(sheet: &Sheet) -> Vec<u8> {
    let mut buffer = vec![0; 20_000];
    let (answer, count) = write_sheet(sheet, &mut buffer);
    assert_eq!(answer, Ok(()));
    buffer.truncate(count);
    buffer
}

#[test]
fn round_trip() {
    let random = &mut Random::new(15);
    let mut sheets = extreme_sheets(random);
    sheets.extend((0..1500).map(|_| random_sheet(random)));
    for sheet in &sheets {
        let text = written(sheet);
        assert_eq!(load(&text, &Sheet::blank(0, 0)), (Ok(()), *sheet, text.len()));
        let turned = sheet_text(random, sheet);
        assert_eq!(turned.len(), text.len());
        assert_eq!(load(&turned, &Sheet::blank(0, 0)), (Ok(()), *sheet, text.len()));
        let followed = [&text, &b"around=0\nrubbish"[..]].concat();
        assert_eq!(load(&followed, &Sheet::blank(0, 0)), (Ok(()), *sheet, text.len()));
    }
}

#[test]
fn each_ring_from_its_lowest_wire() {
    let random = &mut Random::new(16);
    for _ in 0..300 {
        let text = String::from_utf8(written(&random_sheet(random))).expect("text");
        for line in text.lines().filter_map(|line| line.strip_prefix("around=")) {
            let wires: Vec<usize> = line.split(',').map(|k| k.parse().expect("number")).collect();
            assert_eq!(wires.first(), wires.iter().min());
        }
    }
}

#[test]
fn truncated_sheets_are_refused_1() {
    let random = &mut Random::new(17);
    for _ in 0..60 {
        let sheet = random_sheet(random);
        let text = sheet_text(random, &sheet);
        for front in truncations(&text).take(text.len()).skip(1) {
            assert_eq!(load(front, &Sheet::fresh()).0, Err(1));
        }
    }
}

#[test]
fn plate_prints_the_drawing_of_the_edited_sheet() {
    let random = &mut Random::new(18);
    for _ in 0..300 {
        let sheet = random_sheet(random);
        let (edits, last) = edit_text(random, &sheet, 20);
        let output = plate(&[sheet_text(random, &sheet), edits].concat());
        let mut buffer = vec![0; 20_000];
        let (answer, count) = write_drawing(&last, &mut buffer);
        assert_eq!(answer, Ok(()));
        assert!(output.ends_with(&buffer[..count]));
        let refusals = String::from_utf8(output[..output.len() - count].to_vec()).expect("text");
        assert!(refusals.lines().all(|line| line.starts_with("refused=")));
    }
}

/// The refusal numbers in an output.
fn refusals(output: &[u8]) -> BTreeSet<u8> {
    let text = std::str::from_utf8(output).expect("text");
    let numbers = text.lines().filter_map(|line| line.strip_prefix("refused="));
    numbers.map(|number| number.parse().expect("a number")).collect()
}

#[test]
fn every_refusal_that_plate_can_print_occurs() {
    let mut met = BTreeSet::new();
    let mut accepted = 0;
    for input in Inputs::new(19).take(3000) {
        let output = plate(&input);
        met.extend(refusals(&output));
        accepted += usize::from(output.windows(5).any(|window| window == b"rows="));
    }
    let expected: BTreeSet<u8> = (1..=8).chain(10..=16).chain([18]).collect();
    assert_eq!(met, expected);
    assert!(accepted > 1200, "{accepted}");
}

/// With links 6 and 7 can't come but 19 can.
#[test]
fn every_refusal_that_plate_can_print_for_links_occurs() {
    let mut met = BTreeSet::new();
    let (mut accepted, mut links) = (0, 0);
    for input in LinkInputs::new(23).take(3000) {
        let third = input.splitn(3, |&byte| byte == b'\n').nth(2).unwrap_or(b"");
        if !third.starts_with(b"link=") {
            continue;
        }
        links += 1;
        let output = plate(&input);
        met.extend(refusals(&output));
        accepted += usize::from(output.windows(5).any(|window| window == b"rows="));
    }
    let expected: BTreeSet<u8> = (1..=5).chain([8]).chain(10..=16).chain([18, 19]).collect();
    assert_eq!(met, expected);
    assert!(links > 2400 && accepted > 1000, "{links} {accepted}");
}

#[test]
fn the_generator_finds_each_refusal() {
    let random = &mut Random::new(20);
    let mut edits = BTreeSet::new();
    let mut sheets = BTreeSet::new();
    let mut links: BTreeSet<u8> = BTreeSet::new();
    for _ in 0..200 {
        let sheet = random_sheet(random);
        edits.extend((10..=16).filter(|&number| refused_edit(random, &sheet, number).is_some()));
        sheets.extend((5..=8).filter(|&number| refused_sheet(random, &sheet, number).is_some()));
        let found = |number: &u8| refused_links(random, &sheet, *number).is_some();
        links.extend([5, 8, 19].into_iter().filter(found));
    }
    assert_eq!(edits, (10..=16).collect());
    assert_eq!(sheets, (5..=8).collect());
    assert_eq!(links, [5, 8, 19].into());
}

#[test]
fn the_same_seed_gives_the_same_sequence() {
    let inputs = |seed| Inputs::new(seed).take(200).collect::<Vec<_>>();
    let records = |seed| Records::new(seed).take(100).collect::<Vec<_>>();
    assert!(inputs(1) == inputs(1) && inputs(1) != inputs(2));
    assert!(records(1) == records(1) && records(1) != records(2));
    assert!(special_inputs() == special_inputs());
    let links = |seed| LinkInputs::new(seed).take(100).collect::<Vec<_>>();
    let texts = |seed| LinkTexts::new(seed).take(100).collect::<Vec<_>>();
    assert!(links(1) == links(1) && links(1) != links(2));
    assert!(texts(1) == texts(1) && texts(1) != texts(2));
    assert!(special_link_inputs() == special_link_inputs());
}

#[test]
fn special_inputs_have_the_sizes() {
    let sizes: BTreeSet<usize> = special_inputs().iter().map(Vec::len).collect();
    assert!([0, 1, 16_383, 16_384, 16_385].iter().all(|size| sizes.contains(size)));
    assert_eq!(padded(b"ab", b"cd", 5), b"abcdc");
    for input in special_inputs().into_iter().chain(special_link_inputs()) {
        let output = plate(&input);
        assert_eq!(output == b"refused=18\n", input.len() > 16_384);
    }
}

#[test]
fn read_edit_takes_every_byte_of_a_list() {
    let random = &mut Random::new(21);
    for _ in 0..200 {
        let (text, _) = edit_text(random, &Sheet::fresh(), 30);
        let lines = text.split_inclusive(|&byte| byte == b'\n');
        let mut rest = &text[..];
        for line in lines {
            let (edit, taken) = read_edit(rest);
            assert_eq!(taken, line.len());
            assert_eq!(edit, read_edit(line).0);
            rest = &rest[taken..];
        }
        assert!(rest.is_empty());
    }
}

#[test]
fn the_program_prints_what_plate_gives() {
    let mut inputs = special_inputs();
    inputs.truncate(12);
    inputs.extend(Inputs::new(22).take(40));
    inputs.extend(LinkInputs::new(24).take(20));
    for input in inputs {
        let mut child = Command::new(env!("CARGO_BIN_EXE_plate-reference"))
            .stdin(Stdio::piped())
            .stdout(Stdio::piped())
            .stderr(Stdio::piped())
            .spawn()
            .expect("the program starts");
        child.stdin.take().expect("input").write_all(&input).expect("the program reads");
        let output = child.wait_with_output().expect("the program ends");
        assert!(output.status.success() && output.stderr.is_empty());
        assert_eq!(output.stdout, plate(&input));
    }
}
