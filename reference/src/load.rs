//! The two loads: a sheet read from the front of a text, its lines those of wires or of links.

use std::ops::RangeInclusive;

use crate::directions::directed;
use crate::sheet::{Answer, Sheet, MAX_DARTS, MAX_EDGES, MAX_VERTICES};
use crate::sound::survey;
use crate::text::{fields, number, numbers, split_line};

/// "Load reads a sheet from the front of the text and tells how many bytes it took."
pub fn load(text: &[u8], present: &Sheet) -> (Answer, Sheet, usize) {
    load_by(text, present, b"wire=", |sheet| survey(&sheet).map(|_| sheet))
}

/// "A second load takes lines `link=a,b` in place of every `wire=` line and chooses the directions"
/// (C-14).
pub fn load_links(text: &[u8], present: &Sheet) -> (Answer, Sheet, usize) {
    load_by(text, present, b"link=", |links| directed(&links))
}

/// A load whose lines of wires have the key given, and which makes the sheet of what stands on the
/// lines, or refuses, after the last line. Refused: "The present sheet comes back, 0 bytes taken."
/// Since C-13: "A load of no bytes now yields the fresh sheet with 0 bytes taken. Text of one byte or
/// more is treated as before"; of the second load: "No bytes give it the fresh sheet, as in C-13."
fn load_by(
    text: &[u8],
    present: &Sheet,
    key: &[u8],
    after_last_line: impl Fn(Sheet) -> Result<Sheet, u8>,
) -> (Answer, Sheet, usize) {
    if text.is_empty() {
        return (Ok(()), Sheet::fresh(), 0);
    }
    let read = read_lines(text, key)
        .and_then(|(lines, taken)| after_last_line(lines).map(|sheet| (sheet, taken)));
    match read {
        Ok((sheet, taken)) => (Ok(()), sheet, taken),
        Err(refusal) => (Err(refusal), *present, 0),
    }
}

/// "in this order: `bars=n`; `wires=m`; m lines `wire=tail,head`; n lines `around=`", or `link=a,b`
/// "in place of every `wire=` line": a is then the tail in the record, b the head. "Line by line; on
/// a line, shape first".
fn read_lines(text: &[u8], key: &[u8]) -> Result<(Sheet, usize), u8> {
    let mut rest = text;
    let vertices = read_count(take_line(&mut rest)?, b"bars=", 2..=MAX_VERTICES)?;
    let edges = read_count(take_line(&mut rest)?, b"wires=", 2..=MAX_EDGES)?;
    let mut sheet = Sheet::blank(vertices, edges);
    for k in 0..edges {
        let (tail, head) = read_edge(take_line(&mut rest)?, key, vertices)?;
        sheet.tails[k] = tail as u16;
        sheet.heads[k] = head as u16;
    }
    let degrees = sheet.degrees();
    let mut placed = [false; MAX_DARTS];
    for v in 0..vertices {
        let length = usize::from(degrees[v]);
        read_ring(take_line(&mut rest)?, v, length, &mut sheet, &mut placed)?;
    }
    Ok((sheet, text.len() - rest.len()))
}

/// "1 text or line not of the layout": a line that isn't there, or without its end.
fn take_line<'a>(rest: &mut &'a [u8]) -> Result<&'a [u8], u8> {
    let (line, after) = split_line(rest).ok_or(1)?;
    *rest = after;
    Ok(line)
}

/// "2 n or m outside its limits."
fn read_count(line: &[u8], key: &[u8], limits: RangeInclusive<usize>) -> Result<usize, u8> {
    let [count] = numbers(line, key).ok_or(1)?;
    if limits.contains(&count) {
        Ok(count)
    } else {
        Err(2)
    }
}

/// "3 a wire line with a bar not in the sheet, or equal bars."
fn read_edge(line: &[u8], key: &[u8], vertices: usize) -> Result<(usize, usize), u8> {
    let [tail, head] = numbers(line, key).ok_or(1)?;
    if tail < vertices && head < vertices && tail != head {
        Ok((tail, head))
    } else {
        Err(3)
    }
}

/// "`around=` with the bar's wires clockwise, at least one, comma between, beginning anywhere";
/// "4 an around line that isn't the bar's wires, each once."
fn read_ring(
    line: &[u8],
    v: usize,
    length: usize,
    sheet: &mut Sheet,
    placed: &mut [bool; MAX_DARTS],
) -> Result<(), u8> {
    let list = line.strip_prefix(b"around=").ok_or(1)?;
    let mut first = None;
    let mut last = 0;
    let mut count = 0;
    let mut fits = true;
    for field in fields(list) {
        let k = number(field).ok_or(1)?;
        match sheet.dart_at(k, v) {
            Some(dart) if !placed[dart] => {
                placed[dart] = true;
                match first {
                    None => first = Some(dart),
                    Some(_) => sheet.nexts[last] = dart as u16,
                }
                last = dart;
                count += 1;
            }
            _ => fits = false,
        }
    }
    match first {
        Some(dart) if fits && count == length => {
            sheet.nexts[last] = dart as u16;
            Ok(())
        }
        _ => Err(4),
    }
}
