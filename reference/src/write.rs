//! Written sheets and drawings.

use crate::draw::{draw, Drawing};
use crate::sheet::{Answer, Sheet, MAX_VERTICES};
use crate::sound::is_sound;

/// Room for the longest text of a sheet or a drawing.
const TEXT_ROOM: usize = 8192;

/// The written sheet in the front of the lent buffer, and its length.
pub fn write_sheet(sheet: &Sheet, buffer: &mut [u8]) -> (Answer, usize) {
    if !is_sound(sheet) {
        return (Err(9), 0);
    }
    lend(buffer, &sheet_text(sheet))
}

/// The text of the sheet's drawing in the front of the lent buffer, and its length.
pub fn write_drawing(sheet: &Sheet, buffer: &mut [u8]) -> (Answer, usize) {
    match draw(sheet) {
        (Ok(()), drawing) => lend(buffer, &drawing_text(sheet, &drawing)),
        (Err(refusal), _) => (Err(refusal), 0),
    }
}

/// "17: lent buffer shorter than the text; the buffer is untouched, count 0. Otherwise the text
/// fills its front, the rest is untouched, and the count is the text's length."
fn lend(buffer: &mut [u8], text: &[u8]) -> (Answer, usize) {
    if buffer.len() < text.len() {
        return (Err(17), 0);
    }
    buffer[..text.len()].copy_from_slice(text);
    (Ok(()), text.len())
}

/// "A written sheet has load's layout, each ring from its lowest wire number." For a sheet whose
/// next-ends form rings.
pub fn sheet_text(sheet: &Sheet) -> Vec<u8> {
    let mut text = Vec::with_capacity(TEXT_ROOM);
    push_line(&mut text, b"bars=", &[sheet.vertices]);
    push_line(&mut text, b"wires=", &[sheet.edges]);
    for k in 0..sheet.edges {
        let ends = [usize::from(sheet.tails[k]), usize::from(sheet.heads[k])];
        push_line(&mut text, b"wire=", &ends);
    }
    let lowest = lowest_darts(sheet);
    for v in 0..sheet.vertices {
        push_ring(&mut text, sheet, usize::from(lowest[v]));
    }
    text
}

/// The end of the lowest wire at each bar.
fn lowest_darts(sheet: &Sheet) -> [u16; MAX_VERTICES] {
    let mut lowest = [0; MAX_VERTICES];
    for dart in (0..2 * sheet.edges).rev() {
        lowest[sheet.vertex_of(dart)] = dart as u16;
    }
    lowest
}

/// A line "`around=` with the bar's wires clockwise", from the wire of `start`.
fn push_ring(text: &mut Vec<u8>, sheet: &Sheet, start: usize) {
    text.extend_from_slice(b"around=");
    push_number(text, start / 2);
    let mut dart = sheet.next(start);
    while dart != start {
        text.push(b',');
        push_number(text, dart / 2);
        dart = sheet.next(dart);
    }
    text.push(b'\n');
}

/// "`rows=`, `columns=`, a line `bar=row,first column,last column` for each bar, a line
/// `wire=column,tail row,head row` for each wire, in number order."
pub fn drawing_text(sheet: &Sheet, drawing: &Drawing) -> Vec<u8> {
    let mut text = Vec::with_capacity(TEXT_ROOM);
    push_line(&mut text, b"rows=", &[usize::from(drawing.rows)]);
    push_line(&mut text, b"columns=", &[usize::from(drawing.columns)]);
    for bar in &drawing.vertices[..sheet.vertices] {
        let numbers = [bar.row, bar.first, bar.last].map(usize::from);
        push_line(&mut text, b"bar=", &numbers);
    }
    for wire in &drawing.edges[..sheet.edges] {
        let numbers = [wire.column, wire.low, wire.high].map(usize::from);
        push_line(&mut text, b"wire=", &numbers);
    }
    text
}

/// A line of the key and the numbers, comma between, ended by byte 10.
pub fn push_line(text: &mut Vec<u8>, key: &[u8], numbers: &[usize]) {
    text.extend_from_slice(key);
    for (i, &number) in numbers.iter().enumerate() {
        if i > 0 {
            text.push(b',');
        }
        push_number(text, number);
    }
    text.push(b'\n');
}

/// A number below 1000 in base ten, no leading zero.
fn push_number(text: &mut Vec<u8>, number: usize) {
    if number >= 100 {
        text.push(b'0' + (number / 100) as u8);
    }
    if number >= 10 {
        text.push(b'0' + (number / 10 % 10) as u8);
    }
    text.push(b'0' + (number % 10) as u8);
}
