//! The readings of C-11: a line ends in 10 alone or in 13 followed by 10.

mod common;

use common::{examples, lines, load_answer, printed, FRESH, FRESH_DRAWN as DRAWN};
use reference::generate::{
    extreme_sheets, mixed_ends, random_sheet, sheet_text as turned_text, truncations, Random,
};
use reference::write::{drawing_text, sheet_text};
use reference::{draw, load, plate, read_edit, Edit, Sheet};

/// A text of the given words, each a line with the given end.
fn ended(words: &str, end: &str) -> Vec<u8> {
    words.split_whitespace().flat_map(|word| [word, end]).collect::<String>().into_bytes()
}

#[test]
fn f1_one_13_right_before_a_10() {
    assert_eq!(load_answer(&ended(FRESH, "\r\n")), Ok(()));
    for end in ["\r", "\r\r\n", "\n\r", "\r \n", "\r\r", "\r\n\r", "\r\n\n", "\r\n\r\n"] {
        assert_eq!(load_answer(&ended(FRESH, end)), Err(1), "{end:?}");
    }
    assert_eq!(load_answer(b"bars=2\r\nwires=2\nwire=0,1\r\nwire=0,0\r\n"), Err(3));
}

#[test]
fn f1_at_every_line() {
    let lines: Vec<&str> = FRESH.split_whitespace().collect();
    for turned in 0..1 << lines.len() {
        let end = |i: usize| if turned >> i & 1 == 1 { "\r\n" } else { "\n" };
        let text: String = (0..lines.len()).flat_map(|i| [lines[i], end(i)]).collect();
        let taken = 55 + (turned as u32).count_ones() as usize;
        let answer = load(text.as_bytes(), &Sheet::blank(0, 0));
        assert_eq!(answer, (Ok(()), Sheet::fresh(), taken), "{text:?}");
        for bad in ["\r", "\r\r\n", "\n\r"] {
            for i in 0..lines.len() {
                // After the last line, 10 13 is the end of the sheet and a byte that isn't looked at.
                let end = |k: usize| if k == i { bad } else { end(k) };
                let text: String = (0..lines.len()).flat_map(|k| [lines[k], end(k)]).collect();
                let expected = if bad == "\n\r" && i + 1 == lines.len() { Ok(()) } else { Err(1) };
                assert_eq!(load_answer(text.as_bytes()), expected, "{text:?}");
            }
        }
    }
}

#[test]
fn f2_a_last_edit_line_that_ends_in_13() {
    assert_eq!(read_edit(b"in=1\r"), (Err(1), 5));
    assert_eq!(read_edit(b"run=0,1,2,2\r"), (Err(1), 12));
    let input = [&lines(FRESH), &b"in=1\r"[..]].concat();
    assert_eq!(printed(&input), format!("refused=1 {DRAWN}"));
}

#[test]
fn f3_a_last_around_line_that_ends_in_13() {
    let mut text = ended(FRESH, "\r\n");
    assert_eq!(text.pop(), Some(b'\n'));
    assert_eq!(load_answer(&text), Err(1));
}

#[test]
fn f4_a_13_that_is_not_reached() {
    assert_eq!(load_answer(b"bars=129\n\r\r\r"), Err(2));
    assert_eq!(load_answer(b"bars=129\r\n\rwires=2"), Err(2));
    assert_eq!(load_answer(b"bars=129\r\r\n"), Err(1));
    for rest in [&b"\r"[..], b"\r\r\n", b"in=1\r", b"\n\r"] {
        let text = [&lines(FRESH), rest].concat();
        assert_eq!(load(&text, &Sheet::blank(0, 0)), (Ok(()), Sheet::fresh(), 55));
    }
}

#[test]
fn f6_read_edit_takes_up_to_the_first_10() {
    assert_eq!(read_edit(b"in=7\r\nout=2\n"), (Ok(Edit::In(7)), 6));
    assert_eq!(read_edit(b"run=0,12,345,999\r\n"), (Ok(Edit::Run(0, 12, 345, 999)), 18));
    assert_eq!(read_edit(b"out=2\r\r\nin=1\n"), (Err(1), 8));
    assert_eq!(read_edit(b"off=2\rin=1\n"), (Err(1), 11));
    assert_eq!(read_edit(b"\r\nin=1\n"), (Err(1), 2));
    assert_eq!(read_edit(b"\rin=1\r\n"), (Err(1), 7));
    assert_eq!(read_edit(b"off=2\n\r\n"), (Ok(Edit::Off(2)), 6));
}

#[test]
fn a_written_text_has_no_13() {
    let random = &mut Random::new(81);
    for _ in 0..200 {
        let sheet = random_sheet(random);
        for text in [sheet_text(&sheet), drawing_text(&sheet, &draw(&sheet).1)] {
            assert!(text.ends_with(b"\n") && !text.contains(&b'\r'));
        }
    }
}

#[test]
fn a_sheet_with_mixed_ends_is_the_same_sheet() {
    let random = &mut Random::new(82);
    let mut sheets = extreme_sheets(random);
    sheets.extend((0..1000).map(|_| random_sheet(random)));
    for sheet in &sheets {
        let text = turned_text(random, sheet);
        let mixed = mixed_ends(random, &text);
        let without: Vec<u8> = mixed.iter().copied().filter(|&byte| byte != b'\r').collect();
        assert!(without == text);
        assert_eq!(load(&mixed, &Sheet::blank(0, 0)), (Ok(()), *sheet, mixed.len()));
    }
}

#[test]
fn every_example_in_both_line_ends() {
    let random = &mut Random::new(83);
    let examples = examples();
    assert_eq!(examples.len(), 20);
    for (path, input, expected) in examples {
        let input = String::from_utf8(input).expect("text").replace("\r\n", "\n");
        assert_eq!(plate(input.replace('\n', "\r\n").as_bytes()), expected, "{}", path.display());
        for _ in 0..20 {
            assert_eq!(
                plate(&mixed_ends(random, input.as_bytes())),
                expected,
                "{}",
                path.display()
            );
        }
    }
}

#[test]
fn a_13_at_every_place_of_a_plate() {
    let text = lines(&format!("{FRESH} in=1"));
    let drawn = plate(&text);
    for at in 0..=text.len() {
        let text = [&text[..at], b"\r", &text[at..]].concat();
        let output = plate(&text);
        if text.get(at + 1) == Some(&b'\n') {
            assert!(output == drawn, "{at}");
        } else if at < 55 {
            assert_eq!(output, b"refused=1\n", "{at}");
        } else {
            assert!(output.starts_with(b"refused=1\nrows="), "{at}");
        }
    }
    for front in truncations(&ended(FRESH, "\r\n")).take(61 - 1).skip(1) {
        assert_eq!(load_answer(front), Err(1));
    }
}
