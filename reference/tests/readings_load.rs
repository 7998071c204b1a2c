//! The readings of load (section A).

mod common;

use common::{lines, load_answer, plate_words, sheet_of, FRESH, FRESH_DRAWN};
use reference::{load, Answer, Sheet};

/// The answer to the head of a sheet of 2 bars and 2 wires, then the given bytes.
fn after_counts(rest: &str) -> Answer {
    load_answer(format!("bars=2\nwires=2\n{rest}").as_bytes())
}

/// The answer to the same with its two wire lines, then the given bytes.
fn after_wires(rest: &str) -> Answer {
    after_counts(&format!("wire=0,1\nwire=0,1\n{rest}"))
}

#[test]
fn a1_line_by_line() {
    assert_eq!(load_answer(b"bars=129\nrubbish"), Err(2));
    assert_eq!(load_answer(b"bars=2\nwires=1\nrubbish\n"), Err(2));
    assert_eq!(after_counts("wire=0,0\nrubbish"), Err(3));
    assert_eq!(after_wires("around=0,0\nrubbish"), Err(4));
    assert_eq!(load_answer(b"rubbish\nbars=129\n"), Err(1));
}

#[test]
fn a2_a_missing_line() {
    assert_eq!(load_answer(b"bars=128\n"), Err(1));
    assert_eq!(after_counts(""), Err(1));
    assert_eq!(after_counts("wire=0,1\n"), Err(1));
    assert_eq!(after_wires(""), Err(1));
    assert_eq!(after_wires("around=0,1\n"), Err(1));
}

#[test]
fn a3_a_line_without_its_end() {
    assert_eq!(load_answer(b"bars=129"), Err(1));
    assert_eq!(after_counts("wire=9,9"), Err(1));
    assert_eq!(after_wires("around=0,0"), Err(1));
    assert_eq!(after_wires("around=0,1\naround=0,1"), Err(1));
    assert_eq!(after_wires("around=0,1\naround=0,1\n"), Ok(()));
}

#[test]
fn a4_the_whole_line_is_shape() {
    assert_eq!(load_answer(b"bars=999x\n"), Err(1));
    assert_eq!(after_counts("wire=9,x\n"), Err(1));
    assert_eq!(after_counts("wire=0,0,\n"), Err(1));
    assert_eq!(after_wires("around=0,0,x\n"), Err(1));
    for shape in [
        " bars=2",
        "bars=2 ",
        "bars= 2",
        "bars=+2",
        "bars=-2",
        "Bars=2",
        "BARS=2",
        "bars=2\r\r",
        "\rbars=2",
        "bars\r=2",
        "bars=\r2",
        "bars=2\rwires=2",
        "bars=2,",
        "bars=2,2",
        "bars=",
        "bars",
        "bars2",
        "bars==2",
        "bar=2",
        "wires=2",
        "",
        "bars=2\0",
        "bars=2.0",
        "bars=0x2",
        "bars=\u{662}",
    ] {
        assert_eq!(load_answer(format!("{shape}\nwires=2\n").as_bytes()), Err(1), "{shape:?}");
    }
    for shape in ["wire=0", "wire=0,1,1", "wire=,1", "wire=0,", "wire=,", "wire=0,,1", "wire=0 ,1"]
    {
        assert_eq!(after_counts(&format!("{shape}\n")), Err(1), "{shape:?}");
    }
    for shape in ["around=,0,1", "around=0,1,", "around=0,,1", "around=0 1", "around", "around=,"] {
        assert_eq!(after_wires(&format!("{shape}\n")), Err(1), "{shape:?}");
    }
    assert_eq!(load_answer(b"bars=\xb2\n"), Err(1));
}

#[test]
fn a5_large_numbers() {
    for (text, refusal) in [
        ("bars=999\n", 2),
        ("bars=1000\n", 1),
        ("bars=0\n", 2),
        ("bars=00\n", 1),
        ("bars=02\n", 1),
        ("bars=2\nwires=257\n", 2),
        ("bars=2\nwires=1000\n", 1),
        ("bars=2\nwires=1\n", 2),
        ("bars=2\nwires=0\n", 2),
        ("bars=2\nwires=999\n", 2),
        ("bars=2\nwires=256\n", 1),
        ("bars=99999999999999999999999999\n", 1),
    ] {
        assert_eq!(load_answer(text.as_bytes()), Err(refusal), "{text:?}");
    }
    assert_eq!(after_counts("wire=999,0\n"), Err(3));
    assert_eq!(after_counts("wire=1000,0\n"), Err(1));
    assert_eq!(after_counts("wire=0,2\n"), Err(3));
    assert_eq!(after_counts("wire=00,1\n"), Err(1));
    assert_eq!(after_wires("around=999\n"), Err(4));
    assert_eq!(after_wires("around=1000\n"), Err(1));
    assert_eq!(plate_words(&format!("{FRESH} in=999")), format!("refused=10 {FRESH_DRAWN}"));
    assert_eq!(plate_words(&format!("{FRESH} in=1000")), format!("refused=1 {FRESH_DRAWN}"));
}

#[test]
fn a6_around_with_nothing() {
    assert_eq!(after_wires("around=\n"), Err(1));
    let lonely = "bars=3 wires=2 wire=0,1 wire=0,1 around=0,1 around=0,1";
    assert_eq!(load_answer(&lines(&format!("{lonely} around="))), Err(1));
    assert_eq!(load_answer(&lines(&format!("{lonely} around=0"))), Err(4));
}

#[test]
fn a7_the_lines_of_the_bars() {
    // Bars 0 and 2 have wires 0, 1 and 1, 2: their lines can't change places.
    let head = "bars=3 wires=3 wire=0,1 wire=0,2 wire=2,1";
    assert_eq!(load_answer(&lines(&format!("{head} around=0,1 around=2,0 around=1,2"))), Ok(()));
    assert_eq!(load_answer(&lines(&format!("{head} around=1,2 around=2,0 around=0,1"))), Err(4));
    assert_eq!(load_answer(&lines(&format!("{head} around=0,1,2"))), Err(4));
    assert_eq!(after_wires("around=0\n"), Err(4));
    assert_eq!(after_wires("around=0,2\n"), Err(4));
    assert_eq!(after_wires("around=0,1,0\n"), Err(4));
    let crowded = ["0,1"; 2000].join(",");
    assert_eq!(after_wires(&format!("around={crowded}\n")), Err(4));
    assert_eq!(after_wires(&format!("around={crowded},x\n")), Err(1));
}

#[test]
fn a7_beginning_anywhere() {
    let head = "bars=2 wires=3 wire=0,1 wire=0,1 wire=0,1";
    let one = sheet_of(&format!("{head} around=0,1,2 around=0,2,1"));
    let other = sheet_of(&format!("{head} around=2,0,1 around=1,0,2"));
    assert_eq!(one, other);
    assert_eq!(one.nexts[..6], [2, 5, 4, 1, 0, 3]);
}

#[test]
fn a8_5_waits() {
    let turned = "bars=2 wires=2 wire=1,0 wire=0,1";
    assert_eq!(load_answer(&lines(&format!("{turned} around=0,0 around=0,1"))), Err(4));
    assert_eq!(load_answer(&lines(&format!("{turned} around=0,1"))), Err(1));
    assert_eq!(load_answer(&lines(&format!("{turned} around=0,1 around=0,1"))), Err(5));
    let other = "bars=3 wires=3 wire=0,2 wire=0,1 wire=2,1 around=0,1 around=1,2 around=0,2";
    assert_eq!(load_answer(&lines(other)), Err(5));
}

#[test]
fn a9_both_halves_of_7() {
    // Bar 0 has an incoming wire and bar 2 none; bar 1 has an outgoing wire and bar 2 none.
    let into_0 = "bars=3 wires=3 wire=0,1 wire=2,0 wire=2,1 around=0,1 around=0,2 around=1,2";
    assert_eq!(load_answer(&lines(into_0)), Err(7));
    let out_of_1 = "bars=3 wires=3 wire=0,1 wire=1,2 wire=0,2 around=0,2 around=0,1 around=1,2";
    assert_eq!(load_answer(&lines(out_of_1)), Err(7));
    // Only another bar with no incoming wire, only another with no outgoing one.
    let source = "bars=3 wires=4 wire=0,1 wire=0,1 wire=2,1 wire=2,1 \
        around=0,1 around=0,1,2,3 around=2,3";
    assert_eq!(load_answer(&lines(source)), Err(7));
    let sink = "bars=3 wires=4 wire=0,1 wire=0,1 wire=0,2 wire=0,2 \
        around=0,1,2,3 around=0,1 around=2,3";
    assert_eq!(load_answer(&lines(sink)), Err(7));
}

#[test]
fn a10_two_pieces() {
    let pieces = "bars=4 wires=4 wire=0,1 wire=0,1 wire=2,3 wire=2,3 \
        around=0,1 around=0,1 around=2,3 around=2,3";
    assert_eq!(load_answer(&lines(pieces)), Err(7));
    assert_eq!(load_answer(&lines(&pieces.replacen("wire=2,3", "wire=3,2", 1))), Err(6));
}

#[test]
fn order_of_5_to_8() {
    // A circle, and a wire 0 that isn't from 0 to 1: 5. A circle with no bar 0 rule: 6.
    let both = "bars=2 wires=2 wire=1,0 wire=0,1 around=0,1 around=0,1";
    assert_eq!(load_answer(&lines(both)), Err(5));
    let circle = "bars=2 wires=2 wire=0,1 wire=1,0 around=0,1 around=0,1";
    assert_eq!(load_answer(&lines(circle)), Err(6));
    // Three twisted wires (8) from 0 to 2, which has no outgoing wire: 7.
    let twisted = "bars=3 wires=4 wire=0,1 wire=0,2 wire=0,2 wire=0,2 \
        around=0,1,2,3 around=0 around=1,2,3";
    assert_eq!(load_answer(&lines(twisted)), Err(7));
}

#[test]
fn a11_what_follows_is_not_looked_at() {
    for rest in [&b""[..], b"\n", b"rubbish", b"\xff\0\xfe", b"in=1\n", b"around=0,1\n"] {
        let text = [&lines(FRESH), rest].concat();
        assert_eq!(load(&text, &Sheet::blank(0, 0)), (Ok(()), Sheet::fresh(), 55));
    }
}

#[test]
fn a12_no_size_limit() {
    let text = [lines(FRESH), vec![b'\n'; 100_000]].concat();
    assert_eq!(load(&text, &Sheet::blank(0, 0)), (Ok(()), Sheet::fresh(), 55));
    let crowded = ["0,1"; 20_000].join(",");
    assert_eq!(after_wires(&format!("around={crowded}\n")), Err(4));
}

#[test]
fn a13_the_present_sheet() {
    let mut present = Sheet::blank(usize::MAX, 65_535);
    present.tails[255] = 65_535;
    present.nexts[511] = 1;
    assert_eq!(load(b"bars=1\n", &present), (Err(2), present, 0));
    assert_eq!(load(b"\n", &present), (Err(1), present, 0));
    assert_eq!(load(&lines(FRESH), &present), (Ok(()), Sheet::fresh(), 55));
}
