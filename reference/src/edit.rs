//! The four edits.

use crate::levels::reaches;
use crate::sheet::{Answer, Sheet, MAX_EDGES, MAX_VERTICES};
use crate::sound::survey_sound;

/// "An edit line reads as one of four edits: `in=k`, `run=a,p,b,q`, `out=k`, `off=v`"
#[derive(Clone, Copy, Debug, PartialEq, Eq)]
pub enum Edit {
    In(usize),
    Run(usize, usize, usize, usize),
    Out(usize),
    Off(usize),
}

/// One edit, whichever it is.
pub fn apply(sheet: &Sheet, edit: Edit) -> (Answer, Sheet) {
    match edit {
        Edit::In(k) => put_in(sheet, k),
        Edit::Run(a, p, b, q) => run(sheet, a, p, b, q),
        Edit::Out(k) => take_out_wire(sheet, k),
        Edit::Off(v) => take_out_bar(sheet, v),
    }
}

/// "A refused edit hands back the sheet it got."
fn answer(sheet: &Sheet, edited: Result<Sheet, u8>) -> (Answer, Sheet) {
    match edited {
        Ok(new) => (Ok(()), new),
        Err(refusal) => (Err(refusal), *sheet),
    }
}

/// "Put in (wire k): bar n is new; wire k now ends there, wire m goes from bar n to the old head
/// and takes k's place in its ring."
pub fn put_in(sheet: &Sheet, k: usize) -> (Answer, Sheet) {
    answer(sheet, subdivide_edge(sheet, k))
}

/// "Run (bar a, wire p, bar b, wire q): wire m goes from a to b; its end at a comes just after p
/// clockwise, its end at b just after q."
pub fn run(sheet: &Sheet, a: usize, p: usize, b: usize, q: usize) -> (Answer, Sheet) {
    answer(sheet, insert_edge(sheet, a, p, b, q))
}

/// "Take out a wire (k): both ends leave their rings. Then wire m−1, if another, gets number k."
pub fn take_out_wire(sheet: &Sheet, k: usize) -> (Answer, Sheet) {
    answer(sheet, delete_edge(sheet, k))
}

/// "Take out a bar (v), with one incoming and one outgoing wire"
pub fn take_out_bar(sheet: &Sheet, v: usize) -> (Answer, Sheet) {
    answer(sheet, smooth_vertex(sheet, v))
}

/// "10 k not in the sheet; 12 k is 0; 11 n is 128 or m is 256."
fn subdivide_edge(sheet: &Sheet, k: usize) -> Result<Sheet, u8> {
    survey_sound(sheet)?;
    let (n, m) = (sheet.vertices, sheet.edges);
    if k >= m {
        return Err(10);
    }
    if k == 0 {
        return Err(12);
    }
    if n == MAX_VERTICES || m == MAX_EDGES {
        return Err(11);
    }
    let mut new = *sheet;
    replace_dart(&mut new, 2 * k + 1, 2 * m + 1);
    new.tails[m] = n as u16;
    new.heads[m] = sheet.heads[k];
    new.heads[k] = n as u16;
    new.nexts[2 * k + 1] = (2 * m) as u16;
    new.nexts[2 * m] = (2 * k + 1) as u16;
    new.vertices = n + 1;
    new.edges = m + 1;
    Ok(new)
}

/// "10 a, b, p or q not in the sheet; 13 p has no end at a, or q none at b, or the two corners
/// lie in different faces; 14 a is b, or a directed path leads from b to a; 11 m is 256."
fn insert_edge(sheet: &Sheet, a: usize, p: usize, b: usize, q: usize) -> Result<Sheet, u8> {
    let survey = survey_sound(sheet)?;
    let (n, m) = (sheet.vertices, sheet.edges);
    if a >= n || b >= n || p >= m || q >= m {
        return Err(10);
    }
    let end_at_a = sheet.dart_at(p, a).ok_or(13)?;
    let end_at_b = sheet.dart_at(q, b).ok_or(13)?;
    // "The corner after p at a lies in the face whose walk arrives at a by p."
    if survey.faces[end_at_a ^ 1] != survey.faces[end_at_b ^ 1] {
        return Err(13);
    }
    if a == b || reaches(m, &sheet.tails, &sheet.heads, b, a) {
        return Err(14);
    }
    if m == MAX_EDGES {
        return Err(11);
    }
    let mut new = *sheet;
    new.tails[m] = a as u16;
    new.heads[m] = b as u16;
    insert_after(&mut new, end_at_a, 2 * m);
    insert_after(&mut new, end_at_b, 2 * m + 1);
    new.edges = m + 1;
    Ok(new)
}

/// "10 k not in the sheet; 12 k is 0; 15 m is 2, or its tail has no other outgoing wire, or its
/// head no other incoming."
fn delete_edge(sheet: &Sheet, k: usize) -> Result<Sheet, u8> {
    survey_sound(sheet)?;
    let m = sheet.edges;
    if k >= m {
        return Err(10);
    }
    if k == 0 {
        return Err(12);
    }
    let other_outgoing = (0..m).any(|j| j != k && sheet.tails[j] == sheet.tails[k]);
    let other_incoming = (0..m).any(|j| j != k && sheet.heads[j] == sheet.heads[k]);
    if m == 2 || !other_outgoing || !other_incoming {
        return Err(15);
    }
    let mut new = *sheet;
    remove_dart(&mut new, 2 * k);
    remove_dart(&mut new, 2 * k + 1);
    fill_edge_number(&mut new, k);
    Ok(new)
}

/// "10 v not in the sheet; 16 v is 0 or 1, or hasn't exactly one incoming and one outgoing wire."
/// "the incoming wire goes on to the outgoing one's head, in its place; the outgoing wire goes.
/// The last wire gets the freed number, then bar n−1 gets number v."
fn smooth_vertex(sheet: &Sheet, v: usize) -> Result<Sheet, u8> {
    survey_sound(sheet)?;
    if v >= sheet.vertices {
        return Err(10);
    }
    let incoming = only_edge(&sheet.heads[..sheet.edges], v);
    let outgoing = only_edge(&sheet.tails[..sheet.edges], v);
    let (incoming, outgoing) = match (incoming, outgoing) {
        (Some(incoming), Some(outgoing)) if v > 1 => (incoming, outgoing),
        _ => return Err(16),
    };
    let mut new = *sheet;
    replace_dart(&mut new, 2 * outgoing + 1, 2 * incoming + 1);
    new.heads[incoming] = sheet.heads[outgoing];
    fill_edge_number(&mut new, outgoing);
    fill_vertex_number(&mut new, v);
    Ok(new)
}

/// The only wire whose entry is v, where there is exactly one.
fn only_edge(ends: &[u16], v: usize) -> Option<usize> {
    let mut edges = (0..ends.len()).filter(|&k| usize::from(ends[k]) == v);
    let edge = edges.next()?;
    edges.next().is_none().then_some(edge)
}

/// The end before `dart` in its ring.
fn previous(sheet: &Sheet, dart: usize) -> usize {
    let mut before = dart;
    while sheet.next(before) != dart {
        before = sheet.next(before);
    }
    before
}

/// `new` comes just after `dart` in its ring.
fn insert_after(sheet: &mut Sheet, dart: usize, new: usize) {
    sheet.nexts[new] = sheet.nexts[dart];
    sheet.nexts[dart] = new as u16;
}

/// `dart` leaves its ring.
fn remove_dart(sheet: &mut Sheet, dart: usize) {
    let before = previous(sheet, dart);
    sheet.nexts[before] = sheet.nexts[dart];
}

/// `new` takes the place of `old` in its ring.
fn replace_dart(sheet: &mut Sheet, old: usize, new: usize) {
    insert_after(sheet, old, new);
    remove_dart(sheet, old);
}

/// "Then wire m−1, if another, gets number k": wire k has left its rings. The last entries
/// become unused, which is 0.
fn fill_edge_number(sheet: &mut Sheet, k: usize) {
    let last = sheet.edges - 1;
    if k != last {
        sheet.tails[k] = sheet.tails[last];
        sheet.heads[k] = sheet.heads[last];
        replace_dart(sheet, 2 * last, 2 * k);
        replace_dart(sheet, 2 * last + 1, 2 * k + 1);
    }
    sheet.tails[last] = 0;
    sheet.heads[last] = 0;
    sheet.nexts[2 * last] = 0;
    sheet.nexts[2 * last + 1] = 0;
    sheet.edges = last;
}

/// "then bar n−1 gets number v": no wire has an end at bar v any more.
fn fill_vertex_number(sheet: &mut Sheet, v: usize) {
    let last = sheet.vertices - 1;
    for k in 0..sheet.edges {
        for end in [&mut sheet.tails[k], &mut sheet.heads[k]] {
            if usize::from(*end) == last {
                *end = v as u16;
            }
        }
    }
    sheet.vertices = last;
}
