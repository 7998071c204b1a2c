//! The program `plate`.

use crate::draw::draw;
use crate::edit::apply;
use crate::load::{load, load_links};
use crate::read_edit::read_edit;
use crate::sheet::{Answer, Sheet};
use crate::write::{drawing_text, push_line};

/// "More than 16,384 bytes: it prints `refused=18` only."
pub const MAX_INPUT: usize = 16_384;

/// "The program `plate` reads standard input: one sheet, then edit lines to the end." All that it
/// prints: "A refused load: its line `refused=` and number only. Else one such line for each
/// refused edit, then the drawing".
pub fn plate(input: &[u8]) -> Vec<u8> {
    plate_by(input, load_links)
}

/// The same by a second load of the caller's: "Which choice it makes is free", so another's `plate`
/// must print what this gives with that one's second load.
pub fn plate_by(input: &[u8], links: impl Fn(&[u8], &Sheet) -> (Answer, Sheet, usize)) -> Vec<u8> {
    let (mut sheet, mut rest) = match read_input(input, links) {
        Ok(read) => read,
        Err(refusal) => return refusal_line(refusal),
    };
    let mut output = Vec::new();
    while !rest.is_empty() {
        let (edit, taken) = read_edit(rest);
        rest = &rest[taken..];
        let (answer, edited) = match edit {
            Ok(edit) => apply(&sheet, edit),
            Err(refusal) => (Err(refusal), sheet),
        };
        if let Err(refusal) = answer {
            output.extend(refusal_line(refusal));
        }
        sheet = edited;
    }
    let (_, drawing) = draw(&sheet);
    output.extend(drawing_text(&sheet, &drawing));
    output
}

/// The sheet at the front of an input and what follows it, where neither 18 nor the load refuses it.
pub fn read_input(
    input: &[u8],
    links: impl Fn(&[u8], &Sheet) -> (Answer, Sheet, usize),
) -> Result<(Sheet, &[u8]), u8> {
    if input.len() > MAX_INPUT {
        return Err(18);
    }
    let (answer, sheet, taken) = load_input(input, links);
    answer.map(|()| (sheet, &input[taken..]))
}

/// The load of an input by the first load or the second: "`plate` uses it where the input's third line
/// begins with `link=`." The third line is what follows the second byte 10, whatever stands before it,
/// and it need not be whole.
pub fn load_input(
    input: &[u8],
    links: impl Fn(&[u8], &Sheet) -> (Answer, Sheet, usize),
) -> (Answer, Sheet, usize) {
    let third = input.splitn(3, |&byte| byte == b'\n').nth(2);
    if third.is_some_and(|rest| rest.starts_with(b"link=")) {
        links(input, &Sheet::fresh())
    } else {
        load(input, &Sheet::fresh())
    }
}

/// "its line `refused=` and number"
pub fn refusal_line(refusal: u8) -> Vec<u8> {
    let mut line = Vec::new();
    push_line(&mut line, b"refused=", &[usize::from(refusal)]);
    line
}
