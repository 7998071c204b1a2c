//! Rows, columns and the drawing.

use crate::levels::levels;
use crate::sheet::{Answer, Sheet, MAX_EDGES, MAX_VERTICES};
use crate::sound::{survey_sound, Survey};

/// "A bar lies in its row, from the least to the greatest column of its wires." Since C-12 "the plate
/// trade now draws a bar up to its right neighbour"; this is "every bar but 0 and 1".
#[derive(Clone, Copy, Debug, Default, PartialEq, Eq)]
pub struct VertexSegment {
    pub row: u16,
    pub first: u16,
    pub last: u16,
}

/// "A wire stands in the column of its left face, from its tail's row to its head's row."
#[derive(Clone, Copy, Debug, Default, PartialEq, Eq)]
pub struct EdgeSegment {
    pub column: u16,
    pub low: u16,
    pub high: u16,
}

/// "The drawing record holds rows, columns, a row and two columns for each bar, a column and two
/// rows for each wire; unused entries 0."
#[derive(Clone, Copy, Debug, PartialEq, Eq)]
pub struct Drawing {
    pub rows: u16,
    pub columns: u16,
    pub vertices: [VertexSegment; MAX_VERTICES],
    pub edges: [EdgeSegment; MAX_EDGES],
}

impl Drawing {
    /// "a record of zeros"
    pub fn zeros() -> Drawing {
        Drawing {
            rows: 0,
            columns: 0,
            vertices: [VertexSegment::default(); MAX_VERTICES],
            edges: [EdgeSegment::default(); MAX_EDGES],
        }
    }
}

/// "Draw only 9, and then a record of zeros."
pub fn draw(sheet: &Sheet) -> (Answer, Drawing) {
    match survey_sound(sheet) {
        Ok(survey) => (Ok(()), drawing_of(sheet, &survey)),
        Err(refusal) => (Err(refusal), Drawing::zeros()),
    }
}

/// The drawing of a sound sheet.
fn drawing_of(sheet: &Sheet, survey: &Survey) -> Drawing {
    // "Row of a bar: the most wires on a directed path from bar 0 to it." Bar 0 is the only bar
    // with no incoming wire, so the longest path that ends at a bar begins at bar 0.
    let rows = &survey.levels;
    let columns = face_columns(sheet, survey);
    let mut drawing = Drawing::zeros();
    drawing.rows = rows[1] + 1;
    drawing.columns = columns[usize::from(survey.faces[0])] + 1;
    for v in 0..sheet.vertices {
        drawing.vertices[v] = VertexSegment { row: rows[v], first: u16::MAX, last: 0 };
    }
    for k in 0..sheet.edges {
        let column = columns[usize::from(survey.faces[2 * k])];
        let (tail, head) = (usize::from(sheet.tails[k]), usize::from(sheet.heads[k]));
        drawing.edges[k] = EdgeSegment { column, low: rows[tail], high: rows[head] };
        for v in [tail, head] {
            let bar = &mut drawing.vertices[v];
            bar.first = bar.first.min(column);
            bar.last = bar.last.max(column);
        }
    }
    lengthen_bars(sheet, survey, &columns, &mut drawing);
    drawing
}

/// "For every bar but 0 and 1, the last column becomes the column of the face to the right of its
/// rightmost wires, less 1. Bars 0 and 1 are drawn as before." The face is that to the right of the
/// rightmost downward wire, which every bar but 0 has; the rightmost upward wire has the same.
fn lengthen_bars(sheet: &Sheet, survey: &Survey, columns: &[u16; 256], drawing: &mut Drawing) {
    let mut rightmost: [Option<usize>; MAX_VERTICES] = [None; MAX_VERTICES];
    for k in 0..sheet.edges {
        let found = &mut rightmost[usize::from(sheet.heads[k])];
        if found.is_none_or(|other| drawing.edges[other].column < drawing.edges[k].column) {
            *found = Some(k);
        }
    }
    for v in 2..sheet.vertices {
        let k = rightmost[v].expect("bar 0 is the only bar with no incoming wire");
        drawing.vertices[v].last = columns[usize::from(survey.faces[2 * k + 1])] - 1;
    }
}

/// "Each wire but wire 0 leads from its left face to its right face; wire 0 leads from its right
/// face to its left. Column of a face: the most steps on such a path from the right face of
/// wire 0." That face is the only one that no wire leads to, and the faces have no circle.
fn face_columns(sheet: &Sheet, survey: &Survey) -> [u16; 256] {
    let mut from = [0; MAX_EDGES];
    let mut to = [0; MAX_EDGES];
    for k in 0..sheet.edges {
        let (left, right) = (survey.faces[2 * k], survey.faces[2 * k + 1]);
        (from[k], to[k]) = if k == 0 { (right, left) } else { (left, right) };
    }
    levels(survey.face_count, sheet.edges, &from, &to).expect("no circle among the faces")
}
