//! Texts of drawings for the check of C-16: our own, such as it must accept where bars and wires have
//! been moved, and wrong ones.

use super::edits::run_in_one_face;
use super::inputs::padded;
use super::random::Random;
use super::sheets::{extreme_sheets, grown, mirrored, random_sheet};
use super::texts::{damaged, link_text, mixed_ends, sheet_text};
use crate::draw::{draw, Drawing};
use crate::edit::{apply, Edit};
use crate::plate::MAX_INPUT;
use crate::sheet::{Answer, Sheet};
use crate::write::drawing_text;

/// No row or column can be above this one: it is below a number of three digits.
pub const LARGEST: u16 = 998;

/// Every row and every column of a drawing mapped to another.
fn mapped(
    sheet: &Sheet,
    drawing: &Drawing,
    row: impl Fn(u16) -> u16,
    column: impl Fn(u16) -> u16,
) -> Drawing {
    let mut new = *drawing;
    for bar in &mut new.vertices[..sheet.vertices] {
        (bar.row, bar.first, bar.last) = (row(bar.row), column(bar.first), column(bar.last));
    }
    for wire in &mut new.edges[..sheet.edges] {
        (wire.column, wire.low, wire.high) = (column(wire.column), row(wire.low), row(wire.high));
    }
    new
}

/// A random number below `limit` for each one below `count`, in rising order.
fn spread(random: &mut Random, count: u16, limit: u16) -> Vec<u16> {
    let mut chosen = Vec::with_capacity(usize::from(count));
    for number in 0..limit {
        if random.below(usize::from(limit - number)) < usize::from(count) - chosen.len() {
            chosen.push(number);
        }
    }
    chosen
}

/// Rows and columns farther apart, in the same order, within the given numbers of them.
pub fn stretched(
    random: &mut Random,
    sheet: &Sheet,
    drawing: &Drawing,
    (row_limit, column_limit): (u16, u16),
) -> Drawing {
    let rows = spread(random, drawing.rows, row_limit);
    let columns = spread(random, drawing.columns, column_limit);
    let place = |places: &[u16], number: u16| places[usize::from(number)];
    let mut new = mapped(sheet, drawing, |row| place(&rows, row), |column| place(&columns, column));
    (new.rows, new.columns) = (row_limit, column_limit);
    new
}

/// The least first and the greatest last column that bar v can have without contact.
fn room(sheet: &Sheet, drawing: &Drawing, v: usize) -> (u16, u16) {
    let bar = drawing.vertices[v];
    let others = (0..sheet.vertices).filter(|&other| other != v);
    let beside = others.map(|other| drawing.vertices[other]).filter(|other| other.row == bar.row);
    let foreign = (0..sheet.edges).filter(|&k| sheet.dart_at(k, v).is_none());
    let passing = foreign.map(|k| drawing.edges[k]);
    let passing = passing.filter(|wire| (wire.low..=wire.high).contains(&bar.row));
    let (mut least, mut most) = (0, LARGEST);
    for (left, right) in beside
        .map(|other| (other.first, other.last))
        .chain(passing.map(|wire| (wire.column, wire.column)))
    {
        if right < bar.first {
            least = least.max(right + 1);
        } else if left > bar.last {
            most = most.min(left - 1);
        }
    }
    (least, most)
}

/// Bar v longer to both sides, within the room that there is for it.
pub fn lengthen(random: &mut Random, sheet: &Sheet, drawing: &mut Drawing, v: usize) {
    let (least, most) = room(sheet, drawing, v);
    let bar = &mut drawing.vertices[v];
    let far = if random.one_in(4) { most } else { most.min(bar.last + 3) };
    let mut between = |low: u16, high: u16| random.between(usize::from(low), usize::from(high));
    bar.first = between(least, bar.first) as u16;
    bar.last = between(bar.last, far) as u16;
    drawing.columns = drawing.columns.max(bar.last + 1);
}

/// The wire of greatest column in a new column left of all else, where it goes from bar 0 to bar 1 and
/// there is room: a drawing with another outer face.
pub fn other_outer_face(sheet: &Sheet, drawing: &Drawing) -> Option<Drawing> {
    let k = (0..sheet.edges).max_by_key(|&k| drawing.edges[k].column)?;
    if (sheet.tails[k], sheet.heads[k]) != (0, 1) || drawing.columns > LARGEST {
        return None;
    }
    let mut new = mapped(sheet, drawing, |row| row, |column| column + 1);
    new.columns += 1;
    new.edges[k].column = 0;
    new.vertices[0].first = 0;
    new.vertices[1].first = 0;
    Some(new)
}

/// A drawing that is right for the sheet, with bars and wires moved so that it still is.
pub fn moved(random: &mut Random, sheet: &Sheet, drawing: &Drawing) -> Drawing {
    let mut new = *drawing;
    for _ in 0..random.below(4) {
        new = other_outer_face(sheet, &new).unwrap_or(new);
    }
    if random.one_in(2) {
        let (times, more) = random.pick(&[(1, 1), (2, 0), (4, 9), (1, 999)]);
        let limit = |count: u16| (times * count + more).min(LARGEST + 1);
        new = stretched(random, sheet, &new, (limit(new.rows), limit(new.columns)));
    }
    for _ in 0..random.below(2 * sheet.vertices) {
        let v = random.below(sheet.vertices);
        lengthen(random, sheet, &mut new, v);
    }
    if random.one_in(2) {
        let more = |random: &mut Random, number: u16| {
            number + random.below(1000 - usize::from(number)) as u16
        };
        (new.rows, new.columns) = (more(random, new.rows), more(random, new.columns));
    }
    new
}

/// The number that is as far from the greatest one below `count` as the given one is from 0.
fn opposite(count: u16, number: u16) -> u16 {
    count.saturating_sub(number + 1)
}

/// Left and right exchanged.
pub fn mirror_image(sheet: &Sheet, drawing: &Drawing) -> Drawing {
    let mut new = mapped(sheet, drawing, |row| row, |column| opposite(drawing.columns, column));
    for bar in &mut new.vertices[..sheet.vertices] {
        std::mem::swap(&mut bar.first, &mut bar.last);
    }
    new
}

/// Top and bottom exchanged, and the ends of wires too where they are to rise.
pub fn upside_down(sheet: &Sheet, drawing: &Drawing, rising: bool) -> Drawing {
    let mut new = mapped(sheet, drawing, |row| opposite(drawing.rows, row), |column| column);
    for wire in &mut new.edges[..sheet.edges] {
        if rising {
            std::mem::swap(&mut wire.low, &mut wire.high);
        }
    }
    new
}

/// A bar one column longer than there is room for, where there is such a column: it touches another bar
/// or a wire.
pub fn too_long(random: &mut Random, sheet: &Sheet, drawing: &Drawing) -> Option<Drawing> {
    let v = random.below(sheet.vertices);
    let (least, most) = room(sheet, drawing, v);
    let mut new = *drawing;
    if least > 0 && random.one_in(2) {
        new.vertices[v].first = least - 1;
    } else if most < LARGEST {
        new.vertices[v].last = most + 1;
    } else {
        return None;
    }
    Some(new)
}

/// All numbers of a drawing, the two declared ones first.
fn numbers<'a>(sheet: &Sheet, drawing: &'a mut Drawing) -> Vec<&'a mut u16> {
    let bars = drawing.vertices[..sheet.vertices].iter_mut();
    let wires = drawing.edges[..sheet.edges].iter_mut();
    [&mut drawing.rows, &mut drawing.columns]
        .into_iter()
        .chain(bars.flat_map(|bar| [&mut bar.row, &mut bar.first, &mut bar.last]))
        .chain(wires.flat_map(|wire| [&mut wire.column, &mut wire.low, &mut wire.high]))
        .collect()
}

/// One number one more or one less, or another number.
fn other_number(random: &mut Random, sheet: &Sheet, drawing: &Drawing) -> Drawing {
    let mut new = *drawing;
    let mut numbers = numbers(sheet, &mut new);
    let i = if random.one_in(6) { random.below(2) } else { random.below(numbers.len()) };
    *numbers[i] = match random.below(8) {
        0 => random.below(1000) as u16,
        1 => random.pick(&[0, 1, LARGEST, 999]),
        2..=4 => (*numbers[i] + 1).min(999),
        _ => numbers[i].saturating_sub(1),
    };
    new
}

/// Two rows, or two columns, that follow each other made one.
fn pressed(random: &mut Random, sheet: &Sheet, drawing: &Drawing) -> Drawing {
    let rows = random.one_in(2);
    let count = if rows { drawing.rows } else { drawing.columns };
    let gone = 1 + random.below(usize::from(count.max(2)) - 1) as u16;
    let place = |number: u16, here: bool| number - u16::from(here && number >= gone);
    mapped(sheet, drawing, |row| place(row, rows), |column| place(column, !rows))
}

/// Two wires from one bar, or two wires to one, with each other's column.
fn wires_exchanged(random: &mut Random, sheet: &Sheet, drawing: &Drawing) -> Drawing {
    let end = random.below(2 * sheet.edges);
    let ends = (0..2 * sheet.edges).filter(|other| other % 2 == end % 2);
    let same: Vec<usize> = ends.filter(|&d| sheet.vertex_of(d) == sheet.vertex_of(end)).collect();
    let (one, other) = (end / 2, random.pick(&same) / 2);
    let mut new = *drawing;
    new.edges[one].column = drawing.edges[other].column;
    new.edges[other].column = drawing.edges[one].column;
    new
}

/// A drawing that is likely to be wrong in one respect, made from a right one.
pub fn spoiled(random: &mut Random, sheet: &Sheet, drawing: &Drawing) -> Drawing {
    let mut new = *drawing;
    let (v, w) = (random.below(sheet.vertices), random.below(sheet.vertices));
    let (j, k) = (random.below(sheet.edges), random.below(sheet.edges));
    match random.below(20) {
        0..=1 => return mirror_image(sheet, drawing),
        2 => return upside_down(sheet, drawing, random.one_in(2)),
        3..=4 => return too_long(random, sheet, drawing).unwrap_or(*drawing),
        5..=8 => return other_number(random, sheet, drawing),
        9 => return pressed(random, sheet, drawing),
        10..=13 => return wires_exchanged(random, sheet, drawing),
        14 => new.vertices.swap(v, w),
        15 => new.edges.swap(j, k),
        16 => new.edges[j].column = drawing.edges[k].column,
        17 => new.edges[j].column = (drawing.edges[k].column + 1).min(999),
        18 => new.vertices[v].first = (drawing.vertices[v].last + 1).min(999),
        _ => (new.edges[k].low, new.edges[k].high) = (drawing.edges[k].high, drawing.edges[k].low),
    }
    new
}

/// A sheet of the same counts: the mirror image, another one, or one wire in another place.
fn other_sheet(random: &mut Random, sheet: &Sheet) -> Sheet {
    match random.below(4) {
        0 => mirrored(sheet),
        1 => grown(random, sheet.vertices, sheet.edges),
        _ => {
            let shorter = apply(sheet, Edit::Out(random.below(sheet.edges))).1;
            let edit = run_in_one_face(random, &shorter);
            apply(&shorter, edit).1
        }
    }
}

/// "two more lines after the wires: `barlength=` [...] and `wirelength=`" (C-19), each the sum of the
/// lines above it; "what C-16 accepts has no such lines".
pub fn totals(sheet: &Sheet, drawing: &Drawing) -> Vec<u8> {
    let bars = drawing.vertices[..sheet.vertices].iter();
    let wires = drawing.edges[..sheet.edges].iter();
    let bar_length: i32 = bars.map(|bar| i32::from(bar.last) - i32::from(bar.first)).sum();
    let wire_length: i32 = wires.map(|wire| i32::from(wire.high) - i32::from(wire.low)).sum();
    format!("barlength={bar_length}\nwirelength={wire_length}\n").into_bytes()
}

/// The text of a drawing, damaged so that it is likely not to be of the layout.
fn damaged_text(random: &mut Random, sheet: &Sheet, drawing: &Drawing) -> Vec<u8> {
    let text = drawing_text(sheet, drawing);
    match random.below(12) {
        0 => [text, totals(sheet, drawing)].concat(),
        1 => mixed_ends(random, &text),
        2 => text[..random.below(text.len())].to_vec(),
        3 => text[..text.len() - 1].to_vec(),
        4 => [&text[..], &[random.word() as u8]].concat(),
        5 => [sheet_text(random, sheet), text].concat(),
        6 => {
            let other = random_sheet(random);
            drawing_text(&other, &draw(&other).1)
        }
        _ => damaged(random, &text),
    }
}

/// The text of a drawing for a sound sheet: mostly a right one, our own or moved, or one that is wrong in
/// one respect or several.
pub fn any_drawing(random: &mut Random, sheet: &Sheet) -> Vec<u8> {
    let own = draw(sheet).1;
    let drawing = if random.one_in(2) { own } else { moved(random, sheet, &own) };
    match random.below(16) {
        0..=4 => drawing_text(sheet, &drawing),
        5..=10 => drawing_text(sheet, &spoiled(random, sheet, &drawing)),
        11 => {
            let once = spoiled(random, sheet, &drawing);
            let declared = Drawing { rows: 999, columns: 999, ..once };
            drawing_text(sheet, &spoiled(random, sheet, &declared))
        }
        12 => {
            let other = other_sheet(random, sheet);
            drawing_text(&other, &draw(&other).1)
        }
        _ => damaged_text(random, sheet, &drawing),
    }
}

/// Every drawing of the fresh sheet within three rows and three columns.
pub fn small_drawings() -> impl Iterator<Item = Drawing> {
    (0..3usize.pow(12)).map(|mut rest| {
        let mut drawing = Drawing { rows: 3, columns: 3, ..Drawing::zeros() };
        for number in numbers(&Sheet::fresh(), &mut drawing).into_iter().skip(2) {
            *number = (rest % 3) as u16;
            rest /= 3;
        }
        drawing
    })
}

/// The text with each of the given bytes put in before each of its bytes, and in place of it.
pub fn other_bytes<'a>(
    text: &'a [u8],
    bytes: impl IntoIterator<Item = u8> + Clone + 'a,
) -> impl Iterator<Item = Vec<u8>> + 'a {
    let places = (0..text.len()).flat_map(|at| [(at, at), (at, at + 1)]);
    places.flat_map(move |(start, end)| {
        let new = move |byte| [&text[..start], &[byte], &text[end..]].concat();
        bytes.clone().into_iter().map(new)
    })
}

/// An endless sequence of sound sheets, each with the text of a drawing.
pub struct Drawings {
    random: Random,
    extremes: Vec<Sheet>,
}

impl Drawings {
    pub fn new(seed: u64) -> Drawings {
        let mut random = Random::new(seed);
        let extremes = extreme_sheets(&mut random);
        Drawings { random, extremes }
    }
}

impl Iterator for Drawings {
    type Item = (Sheet, Vec<u8>);

    fn next(&mut self) -> Option<(Sheet, Vec<u8>)> {
        let random = &mut self.random;
        let sheet =
            if random.one_in(24) { random.pick(&self.extremes) } else { random_sheet(random) };
        Some((sheet, any_drawing(random, &sheet)))
    }
}

/// An input of `verify` made from a sound sheet: its text and that of a drawing, or a text of links and
/// that of a drawing of the sheet which the given second load makes of them; now and then damaged, or made
/// longer, up to the limit of an input or one byte over it.
pub fn verify_input(
    random: &mut Random,
    sheet: &Sheet,
    links: impl Fn(&[u8], &Sheet) -> (Answer, Sheet, usize),
) -> Vec<u8> {
    let (front, sheet) = if random.one_in(2) {
        (sheet_text(random, sheet), *sheet)
    } else {
        let front = link_text(random, sheet);
        let directed = links(&front, sheet).1;
        (front, directed)
    };
    let front = mixed_ends(random, &front);
    let input = [front, any_drawing(random, &sheet)].concat();
    match random.below(24) {
        0..=1 => damaged(random, &input),
        2 => {
            let filler = random.pick(&[&input[..], b"\n", b"wire=0,0,1\n"]);
            padded(&input, filler, MAX_INPUT + random.below(2))
        }
        _ => input,
    }
}
