//! Texts of sheets, and damage to texts.

use super::random::Random;
use crate::sheet::Sheet;

/// The text of a sheet whose next-ends form rings, each ring from a random wire.
pub fn sheet_text(random: &mut Random, sheet: &Sheet) -> Vec<u8> {
    text_of(random, sheet, "wire")
}

/// The same as a text of links, with directions forgotten: each link names its two bars in either
/// order, but link 0 its tail first.
pub fn link_text(random: &mut Random, sheet: &Sheet) -> Vec<u8> {
    let turned: Vec<bool> = (0..sheet.edges).map(|k| k > 0 && random.one_in(2)).collect();
    text_of(random, &sheet.turned(|k| turned[k]), "link")
}

/// The text of a sheet with the given key for its wires.
fn text_of(random: &mut Random, sheet: &Sheet, key: &str) -> Vec<u8> {
    let mut text = format!("bars={}\nwires={}\n", sheet.vertices, sheet.edges);
    for k in 0..sheet.edges {
        text += &format!("{key}={},{}\n", sheet.tails[k], sheet.heads[k]);
    }
    for v in 0..sheet.vertices {
        let wires = ring(random, sheet, v);
        let numbers: Vec<String> = wires.iter().map(usize::to_string).collect();
        text += &format!("around={}\n", numbers.join(","));
    }
    text.into_bytes()
}

/// The wires of a bar clockwise, from a random one.
fn ring(random: &mut Random, sheet: &Sheet, v: usize) -> Vec<usize> {
    let darts: Vec<usize> = (0..2 * sheet.edges).filter(|&d| sheet.vertex_of(d) == v).collect();
    let mut wires = Vec::new();
    if !darts.is_empty() {
        let mut dart = random.pick(&darts);
        for _ in 0..darts.len() {
            wires.push(dart / 2);
            dart = sheet.next(dart);
        }
    }
    wires
}

/// The text with some of its line ends, byte 10, turned into 13 10: none of them, all, or a part.
pub fn mixed_ends(random: &mut Random, text: &[u8]) -> Vec<u8> {
    let turned = random.below(5);
    let mut mixed = Vec::with_capacity(2 * text.len());
    for &byte in text {
        if byte == b'\n' && random.below(4) < turned {
            mixed.push(b'\r');
        }
        mixed.push(byte);
    }
    mixed
}

/// The text with one random damage.
pub fn damaged(random: &mut Random, text: &[u8]) -> Vec<u8> {
    if text.is_empty() {
        return vec![random.word() as u8];
    }
    match random.below(7) {
        0..=1 => damaged_byte(random, text),
        2..=3 => damaged_lines(random, text),
        4 => damaged_end(random, text),
        _ => damaged_number(random, text),
    }
}

/// A byte 10, or the end of the text, with a 13 at the wrong place, or made right.
fn damaged_end(random: &mut Random, text: &[u8]) -> Vec<u8> {
    const ENDS: [&[u8]; 7] = [b"\r", b"\r\r\n", b"\n\r", b"\r\n\r\n", b"\r \n", b"\n\n", b"\r\n"];
    let places: Vec<usize> = (0..text.len()).filter(|&i| text[i] == b'\n').collect();
    let end = random.pick(&ENDS);
    if places.is_empty() || random.one_in(8) {
        return [text, end].concat();
    }
    let at = random.pick(&places);
    [&text[..at], end, &text[at + 1..]].concat()
}

/// A byte changed, gone or put in, or the end cut off.
fn damaged_byte(random: &mut Random, text: &[u8]) -> Vec<u8> {
    let mut new = text.to_vec();
    let at = random.below(text.len());
    match random.below(12) {
        0 => new[at] ^= 1 << random.below(8),
        1 => new[at] = random.word() as u8,
        2 => new[at] = random.between(128, 255) as u8,
        3 => new[at] = random.pick(b"0123456789,=\n\r "),
        4 => drop(new.remove(at)),
        5 => new.insert(at, random.pick(b"0123456789,=\n\r -+x\t\0")),
        6 => new.insert(at, random.word() as u8),
        7 => new.insert(at, b' '),
        8 => new.truncate(at),
        9 => drop(new.pop()),
        10 => new.extend(b"\n"),
        _ => new[at] = new[at].to_ascii_uppercase(),
    }
    new
}

/// A line gone, doubled, put in, or in another place.
fn damaged_lines(random: &mut Random, text: &[u8]) -> Vec<u8> {
    let mut lines: Vec<Vec<u8>> = text.split_inclusive(|&b| b == b'\n').map(Vec::from).collect();
    let (i, j) = (random.below(lines.len()), random.below(lines.len()));
    match random.below(8) {
        0 => drop(lines.remove(i)),
        1 => lines.insert(i, lines[i].clone()),
        2 => lines.insert(i, lines[j].clone()),
        3 => lines.swap(i, j),
        4 => lines.insert(i, b"\n".to_vec()),
        5 => lines[i].retain(|byte| !byte.is_ascii_digit()),
        6 => lines[i].insert(0, b' '),
        _ => {
            let end = lines[i].len() - 1;
            lines[i].insert(end, random.pick(b",\r 0"));
        }
    }
    lines.concat()
}

/// A number replaced: by one of leading zeros, a long one, or another of load's form.
fn damaged_number(random: &mut Random, text: &[u8]) -> Vec<u8> {
    let digit = |i: usize| text.get(i).is_some_and(u8::is_ascii_digit);
    let starts: Vec<usize> =
        (0..text.len()).filter(|&i| digit(i) && (i == 0 || !digit(i - 1))).collect();
    if starts.is_empty() {
        return damaged_byte(random, text);
    }
    let start = match random.below(4) {
        0 => starts[random.below(starts.len().min(4))],
        _ => random.pick(&starts),
    };
    let end = (start..).find(|&i| !digit(i)).unwrap_or(text.len());
    let old = String::from_utf8_lossy(&text[start..end]).into_owned();
    let near = old.parse::<usize>().unwrap_or(0).min(9999);
    let new = match random.below(10) {
        0 => format!("0{old}"),
        1 => format!("00{old}"),
        2 => format!("{old}000"),
        3 => format!("{}", random.pick(&[0, 1, 2, 127, 128, 129, 255, 256, 257, 999])),
        4 => format!("{}", random.pick(&[1000, 65_536, 4_294_967_297, u64::MAX])),
        5 => "9".repeat(random.between(4, 60)),
        6 => format!("{}", near + 1),
        7 => format!("{}", near.saturating_sub(1)),
        8 => format!("{old},{old}"),
        _ => format!("{}", random.below(near + 3)),
    };
    [&text[..start], new.as_bytes(), &text[end..]].concat()
}
