//! The readings of read edit and `plate` (section E), and every refusal number.

mod common;

use std::collections::BTreeSet;

use common::{lines, load_answer, plate_words, printed, FRESH, FRESH_DRAWN as DRAWN, P4};
use reference::generate::sheets::parallel;
use reference::{plate, read_edit, write_drawing, write_sheet, Edit, Sheet};

/// What `plate` prints for the fresh sheet, then the given bytes.
fn after_fresh(rest: &[u8]) -> String {
    printed(&[&lines(FRESH), rest].concat())
}

#[test]
fn e1_bytes_taken() {
    assert_eq!(read_edit(b"in=7\nout=2\n"), (Ok(Edit::In(7)), 5));
    assert_eq!(read_edit(b"run=0,12,345,999\n"), (Ok(Edit::Run(0, 12, 345, 999)), 17));
    assert_eq!(read_edit(b"out=0"), (Ok(Edit::Out(0)), 5));
    assert_eq!(read_edit(b"off=128\n\n"), (Ok(Edit::Off(128)), 8));
    assert_eq!(read_edit(b"rubbish\nin=1\n"), (Err(1), 8));
    assert_eq!(read_edit(b"rubbish"), (Err(1), 7));
    assert_eq!(read_edit(b"\n\n"), (Err(1), 1));
    assert_eq!(read_edit(b""), (Err(1), 0));
}

#[test]
fn e1_edit_lines_not_of_the_layout() {
    for line in [
        "in",
        "in=",
        "in=01",
        "in=00",
        "in=1000",
        "in=-1",
        "in=1,",
        "in=1,1",
        " in=1",
        "in =1",
        "in=1 ",
        "In=1",
        "run=1",
        "run=1,1,1",
        "run=1,1,1,1,1",
        "run=,1,1,1",
        "run=1,1,1,",
        "run=1,1,,1",
        "run=1,1,1,01",
        "out=",
        "off=x",
        "in=1\r\r",
        "\rin=1",
        "in\r=1",
        "in=1\rin=2",
        "in=1\0",
        "put=1",
        "in=\u{661}",
    ] {
        assert_eq!(read_edit(line.as_bytes()), (Err(1), line.len()), "{line:?}");
        let with_end = format!("{line}\nin=1\n");
        assert_eq!(read_edit(with_end.as_bytes()), (Err(1), line.len() + 1), "{line:?}");
    }
}

#[test]
fn e2_e3_unreadable_and_empty_lines() {
    assert_eq!(after_fresh(b"rubbish\nin=0\n"), format!("refused=1 refused=12 {DRAWN}"));
    assert_eq!(after_fresh(b"\n"), format!("refused=1 {DRAWN}"));
    assert_eq!(after_fresh(b"out=1\n\n"), format!("refused=15 refused=1 {DRAWN}"));
    assert_eq!(after_fresh(b"\n\n\n"), format!("refused=1 refused=1 refused=1 {DRAWN}"));
    assert_eq!(after_fresh(b"\xff\xfe"), format!("refused=1 {DRAWN}"));
}

#[test]
fn e4_end_of_input() {
    assert_eq!(after_fresh(b""), DRAWN);
    assert_eq!(after_fresh(b"in=0"), format!("refused=12 {DRAWN}"));
    assert_eq!(after_fresh(b"in=0\n"), format!("refused=12 {DRAWN}"));
}

#[test]
fn e5_size_limit() {
    let fresh = lines(FRESH);
    let fill = |text: &[u8], byte: u8, size: usize| {
        let mut input = text.to_vec();
        input.resize(size, byte);
        input
    };
    let longest = plate(&fill(&fresh, b'\n', 16_384));
    assert_eq!(longest.len(), 163_349);
    assert!(longest[..163_290].chunks(10).all(|line| line == b"refused=1\n"));
    assert_eq!(longest[163_290..], lines(DRAWN));
    assert_eq!(plate(&fill(&fresh, b'\n', 16_385)), b"refused=18\n");
    assert_eq!(plate(&fill(b"", b'x', 16_384)), b"refused=1\n");
    assert_eq!(plate(&fill(b"", b'x', 16_385)), b"refused=18\n");
    assert_eq!(plate(&fill(b"bars=129\n", b'\r', 16_384)), b"refused=2\n");
    assert_eq!(plate(&fill(b"bars=129\n", b'\r', 16_385)), b"refused=18\n");
}

#[test]
fn e6_a_refused_load_prints_one_line() {
    assert_eq!(plate_words("bars=1 in=0 in=0"), "refused=2");
    assert_eq!(plate_words("in=1 in=0"), "refused=1");
}

#[test]
fn e7_refusals_in_order_before_the_drawing() {
    let expected = "refused=12 refused=10 refused=15 refused=16 rows=3 columns=2 bar=0,0,1 \
        bar=2,0,1 bar=1,0,0 wire=1,0,2 wire=0,0,1 wire=0,1,2";
    assert_eq!(plate_words(&format!("{FRESH} in=0 in=2 out=1 in=1 off=1")), expected);
}

#[test]
fn e10_edit_keys() {
    assert_eq!(after_fresh(b"bars=2\nwires=2\n"), format!("refused=1 refused=1 {DRAWN}"));
    assert_eq!(after_fresh(b"into=1\nrunn=1,1,1,1\n"), format!("refused=1 refused=1 {DRAWN}"));
}

/// The refusal numbers that `plate` prints for an input.
fn refusals(words: &str) -> BTreeSet<u8> {
    let printed = plate_words(words);
    let numbers = printed.split(' ').filter_map(|word| word.strip_prefix("refused="));
    numbers.map(|number| number.parse().expect("a number")).collect()
}

#[test]
fn every_refusal_number() {
    let wide = common::sheet_words(&parallel(256));
    let two = "bars=2 wires=2";
    let cases: [(String, u8); 16] = [
        ("bars=02".into(), 1),
        ("bars=129".into(), 2),
        (format!("{two} wire=0,2"), 3),
        (format!("{two} wire=0,1 wire=0,1 around=0"), 4),
        (format!("{two} wire=1,0 wire=1,0 around=0,1 around=0,1"), 5),
        (format!("{two} wire=0,1 wire=1,0 around=0,1 around=0,1"), 6),
        ("bars=3 wires=3 wire=0,1 wire=0,2 wire=0,2 around=0,1,2 around=0 around=1,2".into(), 7),
        ("bars=2 wires=3 wire=0,1 wire=0,1 wire=0,1 around=0,1,2 around=0,1,2".into(), 8),
        (format!("{FRESH} out=2"), 10),
        (format!("{wide} run=0,5,1,6"), 11),
        (format!("{FRESH} out=0"), 12),
        (format!("{P4} run=3,4,2,2"), 13),
        (format!("{P4} run=3,5,2,2"), 14),
        (format!("{FRESH} out=1"), 15),
        (format!("{FRESH} off=1"), 16),
        ("bars=3 wires=3 link=0,1 link=0,1 link=0,2 around=0,1,2 around=0,1 around=2".into(), 19),
    ];
    for (words, refusal) in cases {
        assert_eq!(refusals(&words), BTreeSet::from([refusal]), "{words}");
        if refusal < 9 {
            assert_eq!(load_answer(&lines(&words)), Err(refusal));
        }
    }
    assert_eq!(plate(&[b'\n'; 16_385]), b"refused=18\n");
    assert_eq!(write_sheet(&Sheet::blank(2, 2), &mut [0; 99]), (Err(9), 0));
    assert_eq!(write_drawing(&Sheet::fresh(), &mut [0; 9]), (Err(17), 0));
}
