//! The program `verify`.

use crate::check_drawing::check_drawing;
use crate::load::load_links;
use crate::plate::{read_input, refusal_line};
use crate::sheet::{Answer, Sheet};

/// The program that answers of a drawing by C-16, "a yes or no on it for a given sheet". It reads a sheet
/// as `plate` does, and what follows the sheet, to the end, is the text of the drawing. It prints one
/// line, `accepted`, or `refused=` and the number of the input's refusal or the drawing's.
pub fn verify(input: &[u8]) -> Vec<u8> {
    verify_by(input, load_links)
}

/// The same by a second load of the caller's: on its choice of directions it depends which drawings are
/// right.
pub fn verify_by(input: &[u8], links: impl Fn(&[u8], &Sheet) -> (Answer, Sheet, usize)) -> Vec<u8> {
    let answer = read_input(input, links).and_then(|(sheet, text)| check_drawing(&sheet, text));
    match answer {
        Ok(()) => b"accepted\n".to_vec(),
        Err(refusal) => refusal_line(refusal),
    }
}
