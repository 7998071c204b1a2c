//! When a sheet is sound.

use crate::levels::levels;
use crate::sheet::{Sheet, MAX_DARTS, MAX_EDGES, MAX_VERTICES};
use crate::trace::faces;

/// What the rules on the whole sheet find out, for the calls that go on with it.
pub struct Survey {
    /// The level of each bar: the most wires on a directed path that ends there.
    pub levels: [u16; 256],
    pub face_count: usize,
    /// The face of each walk.
    pub faces: [u16; MAX_DARTS],
}

/// "A sheet is sound when ..." For any record.
pub fn is_sound(sheet: &Sheet) -> bool {
    survey_sound(sheet).is_ok()
}

/// "All other calls on a sheet begin with 9: sheet not sound."
pub fn survey_sound(sheet: &Sheet) -> Result<Survey, u8> {
    let well_formed = counts_within_limits(sheet)
        && edges_join_vertices(sheet)
        && unused_entries_are_zero(sheet)
        && rotations_are_rings(sheet);
    if !well_formed {
        return Err(9);
    }
    survey(sheet).map_err(|_| 9)
}

/// "n and m are within limits"
fn counts_within_limits(sheet: &Sheet) -> bool {
    (2..=MAX_VERTICES).contains(&sheet.vertices) && (2..=MAX_EDGES).contains(&sheet.edges)
}

/// "each wire joins two different bars of the sheet"
fn edges_join_vertices(sheet: &Sheet) -> bool {
    (0..sheet.edges).all(|k| {
        let (tail, head) = (sheet.tails[k], sheet.heads[k]);
        usize::from(tail) < sheet.vertices && usize::from(head) < sheet.vertices && tail != head
    })
}

/// "unused entries are 0"
fn unused_entries_are_zero(sheet: &Sheet) -> bool {
    let zero = |entries: &[u16]| entries.iter().all(|&entry| entry == 0);
    zero(&sheet.tails[sheet.edges..])
        && zero(&sheet.heads[sheet.edges..])
        && zero(&sheet.nexts[2 * sheet.edges..])
}

/// "the next-ends of each bar form one ring of exactly its ends"
fn rotations_are_rings(sheet: &Sheet) -> bool {
    let degrees = sheet.degrees();
    let mut ringed = [false; MAX_VERTICES];
    for start in 0..2 * sheet.edges {
        let vertex = sheet.vertex_of(start);
        if !ringed[vertex] {
            ringed[vertex] = true;
            if !is_ring(sheet, start, usize::from(degrees[vertex])) {
                return false;
            }
        }
    }
    true
}

/// Whether the next-ends lead from `start` back to it in `length` steps and no fewer, by ends
/// of its bar alone. Such a ring meets no end twice.
fn is_ring(sheet: &Sheet, start: usize, length: usize) -> bool {
    let vertex = sheet.vertex_of(start);
    let mut dart = start;
    for step in 1..=length {
        dart = sheet.next(dart);
        if dart >= 2 * sheet.edges || sheet.vertex_of(dart) != vertex {
            return false;
        }
        if (dart == start) != (step == length) {
            return false;
        }
    }
    true
}

/// "After the last line: 5 wire 0 isn't from 0 to 1. 6 a directed circle. 7 the rule on bars 0
/// and 1. 8 n − m + f isn't 2." For a record that meets the other rules.
pub fn survey(sheet: &Sheet) -> Result<Survey, u8> {
    if (sheet.tails[0], sheet.heads[0]) != (0, 1) {
        return Err(5);
    }
    let levels = levels(sheet.vertices, sheet.edges, &sheet.tails, &sheet.heads).ok_or(6)?;
    if !has_one_source_and_sink(sheet) {
        return Err(7);
    }
    let (face_count, faces) = faces(sheet);
    if sheet.vertices + face_count != sheet.edges + 2 {
        return Err(8);
    }
    Ok(Survey { levels, face_count, faces })
}

/// "bar 0 is the only bar with no incoming wire, bar 1 the only one with no outgoing wire"
fn has_one_source_and_sink(sheet: &Sheet) -> bool {
    let mut incoming = [false; MAX_VERTICES];
    let mut outgoing = [false; MAX_VERTICES];
    for k in 0..sheet.edges {
        outgoing[usize::from(sheet.tails[k])] = true;
        incoming[usize::from(sheet.heads[k])] = true;
    }
    (0..sheet.vertices).all(|v| incoming[v] == (v != 0) && outgoing[v] == (v != 1))
}
