//! Whole inputs of the program `plate`.

use std::ops::RangeInclusive;

use super::edits::{any_edit, edit_line, edit_text};
use super::random::Random;
use super::records::{directed_torus, from_rings, refused_sheet, torus};
use super::sheets::{extreme_sheets, grown, parallel, random_sheet};
use super::texts::{damaged, mixed_ends, sheet_text};
use crate::load::load_links;
use crate::plate::{load_input, MAX_INPUT};
use crate::sheet::{Sheet, MAX_EDGES, MAX_VERTICES};

/// An endless sequence of inputs: good ones, damaged ones, blank ones, and ones at the limits.
pub struct Inputs {
    random: Random,
    extremes: Vec<Sheet>,
}

impl Inputs {
    pub fn new(seed: u64) -> Inputs {
        let mut random = Random::new(seed);
        let extremes = extreme_sheets(&mut random);
        Inputs { random, extremes }
    }

    fn sheet(&mut self) -> Sheet {
        if self.random.one_in(12) {
            self.random.pick(&self.extremes)
        } else {
            random_sheet(&mut self.random)
        }
    }

    /// The text of a sheet, and edit lines for it.
    fn good(&mut self) -> Vec<u8> {
        let sheet = self.sheet();
        let count = self.random.pick(&[0, 1, 2, 5, 10, 20, 60]);
        let count = self.random.below(count + 1);
        let mut text = sheet_text(&mut self.random, &sheet);
        text.extend(edit_text(&mut self.random, &sheet, count).0);
        mixed_ends(&mut self.random, &text)
    }

    /// The text of a sheet that load refuses after the last line.
    fn refused_after_last_line(&mut self) -> Vec<u8> {
        let sheet = self.sheet();
        let refusal = self.random.between(5, 8) as u8;
        let refused = refused_sheet(&mut self.random, &sheet, refusal).unwrap_or(sheet);
        let text = sheet_text(&mut self.random, &refused);
        mixed_ends(&mut self.random, &text)
    }

    /// A good input made longer, up to the limit or one byte more.
    fn long(&mut self) -> Vec<u8> {
        let sheet = self.sheet();
        let text = sheet_text(&mut self.random, &sheet);
        lengthened(&mut self.random, text, &sheet)
    }
}

/// The text that gives a sheet, with edit lines for it up to the limit of an input or one byte more.
pub fn lengthened(random: &mut Random, mut text: Vec<u8>, sheet: &Sheet) -> Vec<u8> {
    let size = MAX_INPUT + random.below(2);
    let mut last = *sheet;
    while text.len() < size {
        let (lines, next) = edit_text(random, &last, 200);
        text.extend(lines);
        text.push(b'\n');
        last = next;
    }
    text = mixed_ends(random, &text);
    text.truncate(size);
    text
}

impl Iterator for Inputs {
    type Item = Vec<u8>;

    fn next(&mut self) -> Option<Vec<u8>> {
        Some(match self.random.below(64) {
            0 => self.long(),
            1 => {
                let most = self.random.pick(&[0, 0, 2, 79]);
                let length = self.random.below(most + 1);
                noise(&mut self.random, length)
            }
            2..=7 => self.refused_after_last_line(),
            8..=39 => self.good(),
            kind => {
                let mut text = self.good();
                for _ in 0..if kind < 60 { 1 } else { 3 } {
                    text = damaged(&mut self.random, &text);
                }
                text
            }
        })
    }
}

/// Any bytes.
pub fn noise(random: &mut Random, length: usize) -> Vec<u8> {
    (0..length).map(|_| random.word() as u8).collect()
}

/// The sheets of every count of bars and of every count of wires, with some edit lines each.
pub fn inputs_of_every_size(random: &mut Random) -> Vec<Vec<u8>> {
    let mut inputs = Vec::new();
    for (n, edges) in counts_of_every_size() {
        let edges = random.between(*edges.start(), *edges.end());
        let sheet = grown(random, n, edges);
        let mut input = sheet_text(random, &sheet);
        input.extend(edit_text(random, &sheet, 4).0);
        inputs.push(mixed_ends(random, &input));
    }
    inputs
}

/// Every count of bars with a range of counts of wires, then every count of wires.
pub fn counts_of_every_size() -> impl Iterator<Item = (usize, RangeInclusive<usize>)> {
    let by_vertices = (2..=MAX_VERTICES).map(|n| (n, n..=MAX_EDGES.min(3 * n)));
    let by_edges = (2..=MAX_EDGES).map(|m| (MAX_VERTICES.min(m), m..=m));
    by_vertices.chain(by_edges)
}

/// An input near another one: damaged, cut, its edit lines in another order, more edit lines, other
/// line ends, the sheet a second time, or longer up to the limit and two bytes over it.
pub fn variation(random: &mut Random, input: &[u8]) -> Vec<u8> {
    let (_, sheet, taken) = load_input(input, load_links);
    let (front, rest) = input.split_at(taken);
    match random.below(20) {
        0 => input[..random.below(input.len() + 1)].to_vec(),
        1 => input[..input.len().saturating_sub(1)].to_vec(),
        2..=4 => {
            let mut lines: Vec<&[u8]> = rest.split_inclusive(|&byte| byte == b'\n').collect();
            random.shuffle(&mut lines);
            [front, &lines.concat()].concat()
        }
        5..=8 => {
            let count = random.below(20);
            let more = (0..count).flat_map(|_| edit_line(any_edit(random, &sheet)));
            [input, &more.collect::<Vec<u8>>()].concat()
        }
        9 => [input, front].concat(),
        12 => mixed_ends(random, input),
        10 if random.one_in(8) => {
            let filler = random.pick(&[b"\n".as_slice(), b"out=1\n", b"x", b"in=0\n"]);
            padded(input, filler, MAX_INPUT - 1 + random.below(4))
        }
        11 if random.one_in(8) => {
            let length = random.below(MAX_INPUT + 3);
            noise(random, length)
        }
        _ => damaged(random, input),
    }
}

/// Every front part of the text, from none of it to all.
pub fn truncations(text: &[u8]) -> impl Iterator<Item = &[u8]> {
    (0..=text.len()).map(|length| &text[..length])
}

/// The text, then copies of `filler` up to `size` bytes.
pub fn padded(text: &[u8], filler: &[u8], size: usize) -> Vec<u8> {
    let filling = filler.iter().cycle().copied();
    text.iter().copied().chain(filling).take(size).collect()
}

/// Inputs that should always be among those compared.
pub fn special_inputs() -> Vec<Vec<u8>> {
    let random = &mut Random::new(0);
    let fresh = sheet_text(random, &Sheet::fresh());
    let wide = sheet_text(random, &parallel(256));
    let mut inputs: Vec<Vec<u8>> = vec![Vec::new(), b"\n".to_vec(), b"\r\n".to_vec()];
    inputs.push(b"in=1\nrun=0,1,2,2\n".to_vec());
    let sizes = [MAX_INPUT - 1, MAX_INPUT, MAX_INPUT + 1, MAX_INPUT + 2, 4 * MAX_INPUT];
    for size in sizes {
        for filler in
            [b"\n".as_slice(), b"in=1\n", b"out=1\n", b"x", b"off=2\nin=1\n", b"\r\n", b"\r"]
        {
            inputs.push(padded(&fresh, filler, size));
            inputs.push(padded(&wide, filler, size));
            inputs.push(padded(b"", filler, size));
        }
    }
    for record in [torus(), directed_torus()] {
        inputs.push(sheet_text(random, &record));
    }
    let twisted = from_rings(&[(0, 1); 3], &[vec![0, 1, 2], vec![0, 1, 2]]);
    inputs.push(sheet_text(random, &twisted));
    for head in ["bars=128", "bars=129", "bars=1", "bars=02", "bars=0", "bars=999", "bars=1000"] {
        inputs.push(format!("{head}\n").into_bytes());
        inputs.push(format!("{head}\nwires=2\nwire=0,1\n").into_bytes());
        inputs.push(head.as_bytes().to_vec());
    }
    let crowded = ["0,1"; 4000].join(",");
    inputs.push(format!("bars=2\nwires=2\nwire=0,1\nwire=0,1\naround={crowded}\n").into_bytes());
    inputs.extend(truncations(&fresh).map(Vec::from));
    for end in ["\r\n", "\r", "\r\r\n", "\n\r", "\r \n"] {
        let fresh = String::from_utf8_lossy(&fresh).replace('\n', end).into_bytes();
        inputs.push([&fresh, format!("in=1{end}out=1{end}off=2").as_bytes()].concat());
        inputs.extend(truncations(&fresh).map(Vec::from));
    }
    inputs.extend((0..=u8::MAX).map(|byte| vec![byte]));
    inputs
}
