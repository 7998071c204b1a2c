//! Soundness, rows, columns and the drawing by sets, repeated passes and naive tracing.

use std::collections::{BTreeMap, BTreeSet};

use reference::{Drawing, EdgeSegment, MaskSegment, Sheet, VertexSegment};

fn bar_of(sheet: &Sheet, end: usize) -> usize {
    [sheet.tails[end / 2], sheet.heads[end / 2]][end % 2] as usize
}

/// "A sheet is sound when ...", rule after rule.
pub fn sound(sheet: &Sheet) -> bool {
    let (n, m) = (sheet.vertices, sheet.edges);
    if n < 2 || n > 128 || m < 2 || m > 256 {
        return false;
    }
    for k in 0..256 {
        let (tail, head) = (sheet.tails[k] as usize, sheet.heads[k] as usize);
        let fine = if k < m { tail < n && head < n && tail != head } else { tail + head == 0 };
        if !fine {
            return false;
        }
    }
    (2 * m..512).all(|end| sheet.nexts[end] == 0)
        && (0..n).all(|v| one_ring(sheet, v))
        && whole_sheet_rules(sheet)
}

fn one_ring(sheet: &Sheet, v: usize) -> bool {
    let ends: BTreeSet<usize> = (0..2 * sheet.edges).filter(|&e| bar_of(sheet, e) == v).collect();
    let Some(&start) = ends.first() else {
        return true;
    };
    let mut met = BTreeSet::new();
    let mut end = start;
    while ends.contains(&end) && met.insert(end) {
        end = sheet.nexts[end] as usize;
    }
    end == start && met == ends
}

fn whole_sheet_rules(sheet: &Sheet) -> bool {
    let (n, m) = (sheet.vertices, sheet.edges);
    (sheet.tails[0], sheet.heads[0]) == (0, 1)
        && bipolar(sheet)
        && n as i64 - m as i64 + face_count(sheet) as i64 == 2
}

/// "the rules on circles and on bars 0 and 1"
pub fn bipolar(sheet: &Sheet) -> bool {
    let (n, m) = (sheet.vertices, sheet.edges);
    let wires = || (0..m).map(|k| (sheet.tails[k] as usize, sheet.heads[k] as usize));
    (0..n).all(|v| wires().any(|(_, head)| head == v) == (v != 0))
        && (0..n).all(|v| wires().any(|(tail, _)| tail == v) == (v != 1))
        && {
            let reach = reach(sheet);
            (0..n).all(|v| reach[v] & (1 << v) == 0)
        }
}

/// For each bar the bars at the end of a directed path of one wire or more.
pub fn reach(sheet: &Sheet) -> [u128; 128] {
    let mut reach = [0u128; 128];
    for k in 0..sheet.edges {
        reach[sheet.tails[k] as usize] |= 1 << sheet.heads[k];
    }
    for via in 0..sheet.vertices {
        for v in 0..sheet.vertices {
            if reach[v] & (1 << via) != 0 {
                reach[v] |= reach[via];
            }
        }
    }
    reach
}

/// The face of the walk that leaves by an end, named by the lowest such end in it.
pub fn face_of(sheet: &Sheet, end: usize) -> usize {
    let mut lowest = end;
    let mut walk = end;
    loop {
        let arrival = if walk % 2 == 0 { walk + 1 } else { walk - 1 };
        walk = sheet.nexts[arrival] as usize;
        if walk == end {
            return lowest;
        }
        lowest = lowest.min(walk);
    }
}

pub fn face_count(sheet: &Sheet) -> usize {
    (0..2 * sheet.edges).map(|end| face_of(sheet, end)).collect::<BTreeSet<_>>().len()
}

/// The most steps on a path from `start`, for each node that one leads to; a pass over all steps
/// is repeated until nothing grows, which takes at most one pass for each node.
pub fn longest(start: usize, steps: &[(usize, usize)]) -> BTreeMap<usize, usize> {
    let mut most = BTreeMap::from([(start, 0)]);
    for _ in 0..=steps.len() + 1 {
        let before = most.clone();
        for (from, to) in steps {
            if let Some(&length) = most.get(from) {
                let entry = most.entry(*to).or_insert(0);
                *entry = (*entry).max(length + 1);
            }
        }
        if most == before {
            return most;
        }
    }
    panic!("a circle");
}

/// The most steps on a path from `node` to `goal`, by going down every path; none where no path
/// leads there.
pub fn longest_by_enumeration(node: usize, goal: usize, steps: &[(usize, usize)]) -> Option<usize> {
    let onward = steps.iter().filter(|step| step.0 == node);
    let lengths = onward.filter_map(|step| longest_by_enumeration(step.1, goal, steps));
    let most = lengths.max().map(|length| length + 1);
    if node == goal {
        most.or(Some(0))
    } else {
        most
    }
}

pub fn wire_steps(sheet: &Sheet) -> Vec<(usize, usize)> {
    (0..sheet.edges).map(|k| (sheet.tails[k] as usize, sheet.heads[k] as usize)).collect()
}

pub fn face_steps(sheet: &Sheet) -> Vec<(usize, usize)> {
    let step = |k: usize| {
        let (left, right) = (face_of(sheet, 2 * k), face_of(sheet, 2 * k + 1));
        if k == 0 {
            (right, left)
        } else {
            (left, right)
        }
    };
    (0..sheet.edges).map(step).collect()
}

/// The column of each face, by its name.
pub fn face_columns(sheet: &Sheet) -> BTreeMap<usize, usize> {
    longest(face_of(sheet, 1), &face_steps(sheet))
}

/// The face to the right of a bar but 0 and 1, by the ring: at one corner an upward wire is followed
/// clockwise by a downward one, and the walk that passes it leaves by the downward one.
pub fn face_to_the_right(sheet: &Sheet, v: usize) -> usize {
    let next = |end: usize| sheet.nexts[end] as usize;
    let passes = |&end: &usize| bar_of(sheet, end) == v && end % 2 == 0 && next(end) % 2 == 1;
    let corners: Vec<usize> = (0..2 * sheet.edges).filter(passes).collect();
    let [upward] = corners[..] else { panic!("corners at the right of bar {v}: {corners:?}") };
    face_of(sheet, next(upward))
}

/// The drawing of a sound sheet.
pub fn drawing(sheet: &Sheet) -> Drawing {
    let rows = longest(0, &wire_steps(sheet));
    let columns = face_columns(sheet);
    let column_of = |k: usize| columns[&face_of(sheet, 2 * k)] as u16;
    let mut drawing = Drawing::zeros();
    drawing.rows = rows[&1] as u16 + 1;
    drawing.columns = column_of(0) + 1;
    for v in 0..sheet.vertices {
        let ends = (0..2 * sheet.edges).filter(|&end| bar_of(sheet, end) == v);
        let own: Vec<u16> = ends.map(|end| column_of(end / 2)).collect();
        drawing.vertices[v] = VertexSegment {
            row: rows[&v] as u16,
            first: *own.iter().min().expect("a bar has wires"),
            last: match v {
                0 | 1 => *own.iter().max().expect("a bar has wires"),
                _ => columns[&face_to_the_right(sheet, v)] as u16 - 1,
            },
        };
    }
    for k in 0..sheet.edges {
        drawing.edges[k] = EdgeSegment {
            column: column_of(k),
            low: rows[&(sheet.tails[k] as usize)] as u16,
            high: rows[&(sheet.heads[k] as usize)] as u16,
        };
    }
    drawing
}

/// The segments of the mask of a sound sheet, in halves. Each wire but 0 puts its height into the sets of its
/// two faces, which come in the order of their names, their lowest ends.
pub fn mask(sheet: &Sheet) -> Vec<MaskSegment<i32>> {
    let rows = longest(0, &wire_steps(sheet));
    let columns = face_columns(sheet);
    let x = |face: usize| 2 * columns[&face] as i32 - 1;
    let mut heights: BTreeMap<usize, BTreeSet<i32>> = BTreeMap::new();
    let mut levels = Vec::new();
    for k in 1..sheet.edges {
        let height = 2 * rows[&(sheet.tails[k] as usize)] as i32 + 1;
        let [left, right] = [2 * k, 2 * k + 1].map(|end| face_of(sheet, end));
        for face in [left, right] {
            heights.entry(face).or_default().insert(height);
        }
        levels.push(MaskSegment::Level(height, x(left), x(right)));
    }
    let end = |end: Option<&i32>| *end.expect("a height");
    let upright = |(face, heights): (&usize, &BTreeSet<i32>)| {
        MaskSegment::Upright(x(*face), end(heights.first()), end(heights.last()))
    };
    heights.iter().map(upright).chain(levels).collect()
}
