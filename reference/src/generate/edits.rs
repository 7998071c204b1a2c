//! Edits and edit lines.

use super::random::Random;
use crate::edit::{apply, Edit};
use crate::sheet::Sheet;
use crate::trace::faces;

/// A run between two corners of one face. A corner is that of the walk that arrives there, so
/// 13 is never its refusal, and of the two directions at least one isn't refused 14 where the
/// two bars differ.
pub fn run_in_one_face(random: &mut Random, sheet: &Sheet) -> Edit {
    let (_, faces) = faces(sheet);
    let darts = 2 * sheet.edges;
    let first = random.below(darts);
    let same: Vec<usize> = (0..darts).filter(|&d| faces[d] == faces[first]).collect();
    let second = random.pick(&same);
    let (a, b) = (sheet.vertex_of(first ^ 1), sheet.vertex_of(second ^ 1));
    let edit = Edit::Run(a, first / 2, b, second / 2);
    if apply(sheet, edit).0 == Err(14) && !random.one_in(8) {
        return Edit::Run(b, second / 2, a, first / 2);
    }
    edit
}

/// An edit that is likely to be accepted.
pub fn likely_edit(random: &mut Random, sheet: &Sheet) -> Edit {
    match random.below(10) {
        0..=2 => Edit::In(random.below(sheet.edges)),
        3..=6 => run_in_one_face(random, sheet),
        7..=8 => Edit::Out(random.below(sheet.edges)),
        _ => Edit::Off(random.below(sheet.vertices)),
    }
}

/// A number that is mostly below `count`, or near it, or near a limit, or very large.
pub fn any_number(random: &mut Random, count: usize) -> usize {
    const ODD: [usize; 17] = [
        0,
        1,
        2,
        127,
        128,
        255,
        256,
        511,
        512,
        999,
        1000,
        65_535,
        65_536,
        65_537,
        1 << 32,
        usize::MAX / 2,
        usize::MAX,
    ];
    match random.below(12) {
        0 => count,
        1 => count.saturating_add(1),
        2 => random.pick(&ODD),
        3 => random.below(1000),
        _ => random.below(count.clamp(1, 1000)),
    }
}

/// An edit of any numbers.
pub fn any_edit(random: &mut Random, sheet: &Sheet) -> Edit {
    let (n, m) = (sheet.vertices, sheet.edges);
    match random.below(5) {
        0 => Edit::In(any_number(random, m)),
        1 => Edit::Out(any_number(random, m)),
        2 => Edit::Off(any_number(random, n)),
        _ => Edit::Run(
            any_number(random, n),
            any_number(random, m),
            any_number(random, n),
            any_number(random, m),
        ),
    }
}

/// An edit of a sound sheet that is refused with the given number (10 to 16), where one is found.
pub fn refused_edit(random: &mut Random, sheet: &Sheet, refusal: u8) -> Option<Edit> {
    (0..40).find_map(|_| {
        let edit = match refusal {
            10 | 13 => any_edit(random, sheet),
            11 if random.one_in(2) => Edit::In(random.below(sheet.edges)),
            11 | 14 => run_in_one_face(random, sheet),
            12 => random.pick(&[Edit::In(0), Edit::Out(0)]),
            15 => Edit::Out(random.below(sheet.edges)),
            _ => Edit::Off(random.below(sheet.vertices)),
        };
        (apply(sheet, edit).0 == Err(refusal)).then_some(edit)
    })
}

/// The line of an edit, with its byte 10.
pub fn edit_line(edit: Edit) -> Vec<u8> {
    match edit {
        Edit::In(k) => format!("in={k}\n"),
        Edit::Run(a, p, b, q) => format!("run={a},{p},{b},{q}\n"),
        Edit::Out(k) => format!("out={k}\n"),
        Edit::Off(v) => format!("off={v}\n"),
    }
    .into_bytes()
}

/// A line that doesn't read as an edit.
fn unreadable_line(random: &mut Random) -> Vec<u8> {
    const LINES: [&[u8]; 22] = [
        b"\n",
        b" in=1\n",
        b"in=\n",
        b"in=01\n",
        b"in=1000\n",
        b"in=1 \n",
        b"IN=1\n",
        b"in=1,2\n",
        b"run=0,1,2\n",
        b"run=0,1,2,2,2\n",
        b"run=0,1,,2\n",
        b"run=0,1,2,2,\n",
        b"out=-1\n",
        b"out=+1\n",
        b"off\n",
        b"off=2\r\r\n",
        b"in=1\rin=1\n",
        b"\rin=1\n",
        b"bars=2\n",
        b"on=1\n",
        b"in=1\0\n",
        b"in=\xb1\n",
    ];
    random.pick(&LINES).to_vec()
}

/// About `count` edit lines for a sound sheet, and the sheet after them: most of the edits are
/// accepted; refusals of every number from 10 to 16 and lines that don't read are mixed in.
pub fn edit_text(random: &mut Random, sheet: &Sheet, count: usize) -> (Vec<u8>, Sheet) {
    let mut text = Vec::new();
    let mut sheet = *sheet;
    for _ in 0..count {
        let edit = match random.below(8) {
            0 => {
                text.extend(unreadable_line(random));
                continue;
            }
            1 => any_edit(random, &sheet),
            2..=3 => {
                let refusal = random.between(10, 16) as u8;
                let refused = refused_edit(random, &sheet, refusal);
                refused.unwrap_or_else(|| any_edit(random, &sheet))
            }
            _ => likely_edit(random, &sheet),
        };
        text.extend(edit_line(edit));
        sheet = apply(&sheet, edit).1;
    }
    if random.one_in(3) && !text.is_empty() {
        text.pop();
    }
    (text, sheet)
}
