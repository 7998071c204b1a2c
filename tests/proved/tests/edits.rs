//! Read edit against the reference, on edit lines, damaged lines and any bytes.

use reference::generate::{any_edit, damaged, edit_line, mixed_ends, random_sheet, truncations, Random};
use reference::Edit;

/// The reference's answer in the form of the proved call.
fn expected(text: &[u8]) -> (u16, [u16; 4], usize) {
    let (edit, taken) = reference::read_edit(text);
    let small = |x: usize| u16::try_from(x).expect("an edit line's numbers are below 1000");
    match edit {
        Ok(Edit::In(k)) => (0, [small(k), 0, 0, 0], taken),
        Ok(Edit::Run(a, p, b, q)) => (1, [small(a), small(p), small(b), small(q)], taken),
        Ok(Edit::Out(k)) => (2, [small(k), 0, 0, 0], taken),
        Ok(Edit::Off(v)) => (3, [small(v), 0, 0, 0], taken),
        Err(_) => (5, [0; 4], taken),
    }
}

#[test]
fn read_edit_agrees_on_lines_and_damaged_lines() {
    let random = &mut Random::new(21);
    let mut kinds = [0; 6];
    for _ in 0..60_000 {
        let sheet = if random.one_in(50) { random_sheet(random) } else { reference::Sheet::fresh() };
        let mut text = edit_line(any_edit(random, &sheet));
        if random.one_in(3) {
            text = damaged(random, &text);
        }
        if random.one_in(3) {
            text.extend(edit_line(any_edit(random, &sheet)));
        }
        text = mixed_ends(random, &text);
        if random.one_in(4) {
            text.pop();
        }
        let answer = proved::read_edit(&text);
        kinds[answer.0 as usize] += 1;
        assert_eq!(answer, expected(&text), "{text:?}");
    }
    assert!(kinds[4] == 0, "no line is a load");
    assert!([0, 1, 2, 3, 5].iter().all(|&kind| kinds[kind] > 500), "every kind occurs: {kinds:?}");
}

#[test]
fn read_edit_agrees_on_front_parts_and_special_lines() {
    let lines: [&[u8]; 21] = [
        b"", b"\n", b"in=1", b"in=1\n", b"in=01\n", b"in=1,\n", b"in=1000", b"run=1,2,3,4", b"run=1,2,3,4,5\n", b"out=999\nin=1\n",
        b"off=0\r\n", b"bars=2\n", b"\xff\x80\n", b"In=1\n", b"in=1\r\nin=1\r", b"run=1,2,3,4\r\n\r", b"out=1\r\r\n", b"off=0\n\r\n", b"\r\n",
        b"\rin=1\n", b"in=1\rin=1\n",
    ];
    for line in lines {
        for text in truncations(line) {
            assert_eq!(proved::read_edit(text), expected(text), "{text:?}");
        }
    }
    assert_eq!(proved::read_edit(b""), (5, [0; 4], 0), "of no bytes it takes none and refuses");
    assert_eq!(proved::read_edit(b"in=7\r\nin=8"), (0, [7, 0, 0, 0], 6), "the 13 is taken too");
    assert_eq!(proved::read_edit(b"in=7\r"), (5, [0; 4], 5), "a last line that ends in 13 is refused");
}

#[test]
fn read_edit_agrees_on_any_bytes() {
    let random = &mut Random::new(22);
    for _ in 0..20_000 {
        let length = random.below(24);
        let text: Vec<u8> = (0..length).map(|_| random.word() as u8).collect();
        assert_eq!(proved::read_edit(&text), expected(&text), "{text:?}");
    }
}
