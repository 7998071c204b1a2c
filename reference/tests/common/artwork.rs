//! Another way to the answer of C-16: the text is of the layout where it is the one that is written for the
//! numbers in it, and contact is looked for at every point and half point.

use reference::write::drawing_text;
use reference::{Answer, Drawing, EdgeSegment, Sheet, VertexSegment};

use super::{geometry, slow};

/// The numbers of a text, none above 999, as a drawing of the sheet.
fn drawing_of(sheet: &Sheet, text: &[u8]) -> Option<Drawing> {
    let digits = text.split(|byte| !byte.is_ascii_digit()).filter(|digits| !digits.is_empty());
    let value = |digits: &[u8]| std::str::from_utf8(digits).ok()?.parse().ok();
    let numbers: Vec<u16> = digits.map(value).collect::<Option<_>>()?;
    let count = 2 + 3 * (sheet.vertices + sheet.edges);
    if numbers.len() != count || numbers.iter().any(|&number| number > 999) {
        return None;
    }
    let mut drawing = Drawing::zeros();
    (drawing.rows, drawing.columns) = (numbers[0], numbers[1]);
    let (bars, wires) = numbers[2..].split_at(3 * sheet.vertices);
    for (v, bar) in bars.chunks(3).enumerate() {
        drawing.vertices[v] = VertexSegment { row: bar[0], first: bar[1], last: bar[2] };
    }
    for (k, wire) in wires.chunks(3).enumerate() {
        drawing.edges[k] = EdgeSegment { column: wire[0], low: wire[1], high: wire[2] };
    }
    Some(drawing)
}

pub fn answer(sheet: &Sheet, text: &[u8]) -> Answer {
    if !slow::sound(sheet) {
        return Err(9);
    }
    let drawing = drawing_of(sheet, text).ok_or(20)?;
    if drawing_text(sheet, &drawing) != text || geometry::check_within(sheet, &drawing).is_err() {
        return Err(20);
    }
    geometry::check_ends(sheet, &drawing).map_err(|_| 21)?;
    geometry::check_contact(sheet, &drawing).map_err(|_| 21)?;
    (0..sheet.vertices).try_for_each(|v| geometry::check_order(sheet, &drawing, v)).map_err(|_| 22)
}
