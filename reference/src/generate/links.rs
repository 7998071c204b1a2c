//! Texts of links for the second load (C-14), and inputs of `plate` that begin with one.
//!
//! They are apart from the other inputs: the choice of directions is free, so what two programs print
//! for links can differ. `plate_by` prints what another's `plate` must, by that one's second load.

use super::edits::edit_text;
use super::inputs::{counts_of_every_size, lengthened, padded, truncations};
use super::random::Random;
use super::records::{directed_torus, from_rings, reverse_edge, swap_neighbours, torus};
use super::sheets::{
    backward, extreme_sheets, grown, parallel, path, random_sheet, renumber, renumbered,
};
use super::texts::{damaged, link_text, mixed_ends, sheet_text};
use crate::directions::directed;
use crate::load::load_links;
use crate::plate::MAX_INPUT;
use crate::sheet::{Sheet, MAX_EDGES, MAX_VERTICES};

/// Two bars and one link: joined to links at a bar, it makes a bar that hangs on one link.
pub fn one_link() -> Sheet {
    from_rings(&[(0, 1)], &[vec![0], vec![0]])
}

/// Whether the bars and wires of both are few enough for one record.
fn fits(one: &Sheet, other: &Sheet) -> bool {
    one.vertices + other.vertices <= MAX_VERTICES && one.edges + other.edges <= MAX_EDGES
}

/// Both records as one, in two pieces: the numbers of the second follow those of the first.
pub fn beside(one: &Sheet, other: &Sheet) -> Sheet {
    let mut new = *one;
    let (n, m) = (one.vertices, one.edges);
    for k in 0..other.edges {
        new.tails[m + k] = n as u16 + other.tails[k];
        new.heads[m + k] = n as u16 + other.heads[k];
    }
    for dart in 0..2 * other.edges {
        new.nexts[2 * m + dart] = (2 * m + other.next(dart)) as u16;
    }
    new.vertices = n + other.vertices;
    new.edges = m + other.edges;
    new
}

/// Both records as one, a bar of each made one bar, which no way from the one to the other avoids.
pub fn joined(random: &mut Random, one: &Sheet, other: &Sheet) -> Sheet {
    let first = random.below(2 * one.edges);
    let second = 2 * one.edges + random.below(2 * other.edges);
    let mut new = beside(one, other);
    let (kept, gone) = (new.vertex_of(first) as u16, new.vertex_of(second) as u16);
    // Two ends of two rings that exchange their next-ends make one ring of the two.
    new.nexts.swap(first, second);
    new.vertices -= 1;
    let last = new.vertices as u16;
    for k in 0..new.edges {
        for bar in [&mut new.tails[k], &mut new.heads[k]] {
            if *bar == gone {
                *bar = kept;
            } else if *bar == last {
                *bar = gone;
            }
        }
    }
    new
}

/// A sound sheet of few bars and wires.
fn small_sheet(random: &mut Random) -> Sheet {
    let vertices = random.between(2, 8);
    let edges = random.between(vertices, 12);
    grown(random, vertices, edges)
}

/// Links without a choice of directions, made from those of a sound sheet, where there is room: a bar
/// on one link, two parts joined at one bar, or two pieces; now and then twisted too.
fn without_choice(random: &mut Random, sheet: &Sheet) -> Option<Sheet> {
    let other = if random.one_in(2) { one_link() } else { small_sheet(random) };
    if !fits(sheet, &other) {
        return None;
    }
    let mut new =
        if random.one_in(4) { beside(sheet, &other) } else { joined(random, sheet, &other) };
    if random.one_in(4) {
        new = swap_neighbours(random, &new);
    }
    Some(renumbered(random, &new))
}

/// Link 0 names bar 1 first, or is another link.
fn wrong_first_link(random: &mut Random, sheet: &Sheet) -> Sheet {
    if random.one_in(2) {
        return reverse_edge(sheet, 0);
    }
    let vertex_numbers: Vec<usize> = (0..sheet.vertices).collect();
    let mut edge_numbers: Vec<usize> = (0..sheet.edges).collect();
    random.shuffle(&mut edge_numbers);
    renumber(sheet, &vertex_numbers, &edge_numbers)
}

/// Links made from those of a sound sheet that the second load refuses with the given number (5, 19
/// or 8) after the last line, where they are found.
pub fn refused_links(random: &mut Random, sheet: &Sheet, refusal: u8) -> Option<Sheet> {
    (0..40).find_map(|_| {
        let new = match refusal {
            5 => wrong_first_link(random, sheet),
            19 => without_choice(random, sheet)?,
            _ => swap_neighbours(random, sheet),
        };
        (directed(&new).err() == Some(refusal)).then_some(new)
    })
}

/// A text of links made from a sound sheet: mostly good, or refused 5, 19 or 8 after the last line, or
/// with a `wire=` line among its links.
pub fn any_links(random: &mut Random, sheet: &Sheet) -> Vec<u8> {
    let text = match random.below(16) {
        0..=3 => {
            let refusal = random.pick(&[5, 8, 19, 19]);
            let refused = refused_links(random, sheet, refusal);
            link_text(random, &refused.unwrap_or(*sheet))
        }
        4 => wire_among_links(random, sheet),
        _ => link_text(random, sheet),
    };
    mixed_ends(random, &text)
}

/// A text of links of which one line, but not the first, is a wire's.
fn wire_among_links(random: &mut Random, sheet: &Sheet) -> Vec<u8> {
    let text = link_text(random, sheet);
    let mut lines: Vec<Vec<u8>> = text.split_inclusive(|&b| b == b'\n').map(Vec::from).collect();
    let line = &mut lines[random.between(3, 1 + sheet.edges)];
    line.splice(..4, *b"wire");
    lines.concat()
}

/// Links at the limits: such as have a choice of directions, and such as have none.
pub fn extreme_links(random: &mut Random) -> Vec<Sheet> {
    let mut links = extreme_sheets(random);
    let full = grown(random, MAX_VERTICES - 1, MAX_EDGES - 1);
    let half = grown(random, MAX_VERTICES / 2, MAX_EDGES / 2);
    let other = grown(random, MAX_VERTICES / 2 + 1, MAX_EDGES / 2);
    let mut refused = vec![
        joined(random, &full, &one_link()),
        joined(random, &path(MAX_VERTICES - 1), &one_link()),
        joined(random, &parallel(MAX_EDGES - 1), &one_link()),
        joined(random, &half, &other),
        joined(random, &path(64), &path(65)),
        beside(&half, &half),
        beside(&path(64), &path(64)),
    ];
    for i in 0..refused.len() {
        let record = refused[i];
        refused.push(renumbered(random, &record));
        refused.push(backward(&record));
        refused.push(swap_neighbours(random, &record));
    }
    links.extend(refused);
    links.extend([torus(), directed_torus()]);
    links
}

/// An endless sequence of texts of links, good and damaged, for the second load.
pub struct LinkTexts {
    random: Random,
    extremes: Vec<Sheet>,
}

impl LinkTexts {
    pub fn new(seed: u64) -> LinkTexts {
        let mut random = Random::new(seed);
        let extremes = extreme_links(&mut random);
        LinkTexts { random, extremes }
    }
}

impl Iterator for LinkTexts {
    type Item = Vec<u8>;

    fn next(&mut self) -> Option<Vec<u8>> {
        let random = &mut self.random;
        if random.one_in(16) {
            let links = random.pick(&self.extremes);
            let text = link_text(random, &links);
            return Some(mixed_ends(random, &text));
        }
        let sheet = random_sheet(random);
        let mut text = any_links(random, &sheet);
        match random.below(12) {
            0 if random.one_in(2) => text = sheet_text(random, &sheet),
            0..=2 => text = damaged(random, &text),
            3 => {
                text = damaged(random, &text);
                text = damaged(random, &text);
            }
            _ => {}
        }
        Some(text)
    }
}

/// An endless sequence of inputs of `plate` that begin with a text of links: good ones and damaged
/// ones with edit lines for the sheet that this reference makes of them, and ones at the limits.
pub struct LinkInputs {
    texts: LinkTexts,
}

impl LinkInputs {
    pub fn new(seed: u64) -> LinkInputs {
        LinkInputs { texts: LinkTexts::new(seed) }
    }
}

impl Iterator for LinkInputs {
    type Item = Vec<u8>;

    fn next(&mut self) -> Option<Vec<u8>> {
        let mut input = self.texts.next()?;
        let random = &mut self.texts.random;
        let (answer, sheet, taken) = load_links(&input, &Sheet::fresh());
        if answer.is_err() {
            return Some(input);
        }
        input.truncate(taken);
        if random.one_in(64) {
            input.retain(|&byte| byte != b'\r');
            return Some(lengthened(random, input, &sheet));
        }
        let count = random.pick(&[0, 1, 2, 5, 10, 20, 60]);
        let count = random.below(count + 1);
        let edits = edit_text(random, &sheet, count).0;
        input.extend(mixed_ends(random, &edits));
        if random.one_in(4) {
            input = damaged(random, &input);
        }
        Some(input)
    }
}

/// The links of sheets of every count of bars and of every count of wires, with some edit lines each.
pub fn link_inputs_of_every_size(random: &mut Random) -> Vec<Vec<u8>> {
    let mut inputs = Vec::new();
    for (n, edges) in counts_of_every_size() {
        let edges = random.between(*edges.start(), *edges.end());
        let sheet = grown(random, n, edges);
        let sheet = renumbered(random, &sheet);
        let mut input = link_text(random, &sheet);
        let (_, sheet, _) = load_links(&input, &sheet);
        input.extend(edit_text(random, &sheet, 4).0);
        inputs.push(mixed_ends(random, &input));
    }
    inputs
}

/// Inputs with links that should always be among those compared: at the limits of links and of the
/// input's size, and with heads of which the third line does or doesn't begin with `link=`.
pub fn special_link_inputs() -> Vec<Vec<u8>> {
    let random = &mut Random::new(0);
    let mut inputs: Vec<Vec<u8>> =
        extreme_links(random).iter().map(|links| link_text(random, links)).collect();
    let fresh = link_text(random, &Sheet::fresh());
    let wide = link_text(random, &parallel(MAX_EDGES));
    for size in [MAX_INPUT - 1, MAX_INPUT, MAX_INPUT + 1, 4 * MAX_INPUT] {
        for filler in [b"\n".as_slice(), b"in=1\n", b"out=1\n", b"x", b"off=2\nin=1\n", b"\r"] {
            inputs.push(padded(&fresh, filler, size));
            inputs.push(padded(&wide, filler, size));
        }
    }
    inputs.extend(truncations(&fresh).map(Vec::from));
    let thirds = ["link=0,1\n", "link=", "link", "Link=0,1\n", " link=0,1\n", "\rlink=0,1\n"];
    let heads =
        ["bars=2\nwires=2\n", "bars=2\r\nwires=2\r\n", "bars=2\r\rwires=2\n\n", "\n\n", "x\n\r\n"];
    let tails =
        ["", "link=0,1\n", "wire=0,1\n", "link=0,0\n", "link=0,1\naround=0,1\naround=0,1\n"];
    for head in heads.into_iter().chain(["bars=129\nwires=2\n", "bars=2\nwires=1\n", "bars=2\n"]) {
        for third in thirds {
            inputs.extend(tails.map(|tail| [head, third, tail].concat().into_bytes()));
        }
    }
    inputs
}
