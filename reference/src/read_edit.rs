//! Read edit: one edit line.

use crate::edit::Edit;
use crate::text::{numbers, split_line};

/// "1 line not of the layout. It takes the bytes up to and with the first byte 10, or all where
/// there is none; of no bytes it takes none and refuses 1." Both line ends hold "for edit lines as
/// well"; a last line that lacks its byte 10 has no end, so a 13 is part of it.
pub fn read_edit(text: &[u8]) -> (Result<Edit, u8>, usize) {
    let (line, rest) = split_line(text).unwrap_or((text, &[]));
    (edit_of_line(line).ok_or(1), text.len() - rest.len())
}

/// "An edit line reads as one of four edits: `in=k`, `run=a,p,b,q`, `out=k`, `off=v`, with load's
/// numbers"
fn edit_of_line(line: &[u8]) -> Option<Edit> {
    if let Some([k]) = numbers(line, b"in=") {
        Some(Edit::In(k))
    } else if let Some([a, p, b, q]) = numbers(line, b"run=") {
        Some(Edit::Run(a, p, b, q))
    } else if let Some([k]) = numbers(line, b"out=") {
        Some(Edit::Out(k))
    } else if let Some([v]) = numbers(line, b"off=") {
        Some(Edit::Off(v))
    } else {
        None
    }
}
