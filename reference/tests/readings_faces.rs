//! The readings of C-15: the table of faces. "It holds for each end the number of the face whose walk
//! leaves its bar by that end; faces are numbered from 0 in the order of their lowest such end, and
//! entries past the last end are 0."

mod common;

use common::{sheet_of, slow, FRESH, P4};
use reference::generate::{directed_torus, extreme_sheets, random_sheet, torus, Random, Records};
use reference::{draw, put_in, run, trace_faces, Sheet};

type Table = [u16; 512];

/// The table of a sound sheet.
fn table_of(sheet: &Sheet) -> Table {
    let (answer, table) = trace_faces(sheet);
    assert_eq!(answer, Ok(()), "{sheet:?}");
    table
}

/// Sheets of all sizes, with their tables.
fn traced_sheets(seed: u64) -> Vec<(Sheet, Table)> {
    let random = &mut Random::new(seed);
    let mut sheets = extreme_sheets(random);
    sheets.extend((0..800).map(|_| random_sheet(random)));
    sheets.into_iter().map(|sheet| (sheet, table_of(&sheet))).collect()
}

/// These entries for the ends, and 0 past them.
fn entries(front: &[u16]) -> Table {
    let mut table = [0; 512];
    table[..front.len()].copy_from_slice(front);
    table
}

/// Left of wire 0 is right of wire 1, and the other way round.
#[test]
fn the_fresh_sheet() {
    assert_eq!(trace_faces(&Sheet::fresh()), (Ok(()), entries(&[0, 1, 1, 0])));
    assert_eq!(sheet_of(FRESH), Sheet::fresh());
}

/// P2 has the rings 0, 2, 4 and 1, 5, 3 of ends. The walks that leave by 0, 5 are one face: the walk up
/// wire 0 arrives by 1 and leaves by 5, and that down wire 2 arrives by 4 and leaves by 0. So are those
/// by 1, 2 and those by 3, 4.
#[test]
fn p2_by_hand() {
    let wires = "bars=2 wires=3 wire=0,1 wire=0,1 wire=0,1";
    let p2 = sheet_of(&format!("{wires} around=0,1,2 around=0,2,1"));
    assert_eq!(trace_faces(&p2), (Ok(()), entries(&[0, 1, 1, 2, 2, 0])));
    // With the rings 0, 4, 2 and 1, 3, 5 the faces are 0, 3 and 1, 4 and 2, 5.
    let mirrored = sheet_of(&format!("{wires} around=0,2,1 around=0,1,2"));
    assert_eq!(trace_faces(&mirrored), (Ok(()), entries(&[0, 1, 2, 0, 1, 2])));
}

/// P4 has the rings 2, 6, 0 and 1, 9, 5 and 4, 10, 3 and 8, 7, 11 of ends. From an end the walk arrives
/// by the other end of the wire and leaves by the next in its ring:
/// - 0, 9, 7 is left of wire 0 and right of wires 4 and 3: face 0;
/// - 1, 2, 4 is right of wire 0 and left of wires 1 and 2: face 1;
/// - 3, 6, 11 is right of wires 1 and 5 and left of wire 3: face 2;
/// - 5, 10, 8 is right of wire 2 and left of wires 5 and 4: face 3.
#[test]
fn p4_by_hand() {
    let p4 = [0, 1, 1, 2, 1, 3, 2, 0, 3, 0, 3, 2];
    assert_eq!(trace_faces(&sheet_of(P4)), (Ok(()), entries(&p4)));
    // After `in=1` wire 6 goes on where wire 1 ends: left of it is face 1, right of it face 2.
    let with_bar = put_in(&sheet_of(P4), 1).1;
    let more = [&p4[..], &[1, 2]].concat();
    assert_eq!(trace_faces(&with_bar), (Ok(()), entries(&more)));
    // After `run=2,2,3,5` wire 6 is left of wire 5 and takes its place in face 3, now 5, 12, 8; between
    // the two, 10 and 13 are face 4.
    let (answer, with_wire) = run(&sheet_of(P4), 2, 2, 3, 5);
    assert_eq!(answer, Ok(()));
    let more = [0, 1, 1, 2, 1, 3, 2, 0, 3, 0, 4, 2, 3, 4];
    assert_eq!(trace_faces(&with_wire), (Ok(()), entries(&more)));
}

/// The ends by which the walk from an end leaves a bar, until it leaves by that end again.
fn ends_of_walk(sheet: &Sheet, start: usize) -> [bool; 512] {
    let mut met = [false; 512];
    let mut end = start;
    while !met[end] {
        met[end] = true;
        let arrival = if end % 2 == 0 { end + 1 } else { end - 1 };
        end = sheet.nexts[arrival] as usize;
    }
    assert_eq!(end, start);
    met
}

/// "Prove that two ends have the same number exactly when their walks lie in one face."
#[test]
fn the_same_number_exactly_in_one_face() {
    for (sheet, table) in traced_sheets(141) {
        for one in 0..2 * sheet.edges {
            let met = ends_of_walk(&sheet, one);
            for other in 0..2 * sheet.edges {
                let same = table[one] == table[other];
                assert_eq!(same, met[other], "ends {one} and {other} of {sheet:?}");
            }
        }
    }
}

/// "faces are numbered from 0 in the order of their lowest such end"
#[test]
fn numbers_in_the_order_of_the_lowest_end() {
    for (sheet, table) in traced_sheets(142) {
        let lowest = |&end: &usize| slow::face_of(&sheet, end) == end;
        let order: Vec<usize> = (0..2 * sheet.edges).filter(lowest).collect();
        for end in 0..2 * sheet.edges {
            let face = slow::face_of(&sheet, end);
            assert_eq!(order.get(table[end] as usize), Some(&face), "end {end} of {sheet:?}");
        }
    }
}

/// "After every accepted edit bars less wires plus faces is 2": none of as many numbers is left out,
/// and each comes up after the one before it.
#[test]
fn no_number_is_left_out() {
    let (mut least, mut most) = (512, 0);
    for (sheet, table) in traced_sheets(143) {
        let mut faces = 0;
        for &number in &table[..2 * sheet.edges] {
            assert!(number <= faces, "{number} before {faces} in {sheet:?}");
            faces += u16::from(number == faces);
        }
        assert_eq!(sheet.vertices + faces as usize, sheet.edges + 2);
        (least, most) = (least.min(faces), most.max(faces));
    }
    assert_eq!((least, most), (2, 256));
}

#[test]
fn zeros_past_the_last_end() {
    for (sheet, table) in traced_sheets(144) {
        assert!(table[2 * sheet.edges..].iter().all(|&entry| entry == 0), "{sheet:?}");
    }
}

/// The steps between faces by the table give the longest paths that are the columns, for wires and for
/// the ends of bars.
#[test]
fn a_table_from_which_every_column_is_then_found() {
    for (sheet, table) in traced_sheets(145) {
        let face = |end: usize| table[end] as usize;
        let step = |k: usize| (face(2 * k), face(2 * k + 1));
        let mut steps: Vec<(usize, usize)> = (0..sheet.edges).map(step).collect();
        // "wire 0 leads from its right face to its left"
        steps[0] = (face(1), face(0));
        let columns = slow::longest(face(1), &steps);
        let (answer, drawing) = draw(&sheet);
        assert_eq!((answer, columns.len()), (Ok(()), sheet.edges + 2 - sheet.vertices));
        assert_eq!(drawing.columns as usize, columns[&face(0)] + 1);
        for k in 0..sheet.edges {
            assert_eq!(drawing.edges[k].column as usize, columns[&face(2 * k)], "{sheet:?}");
        }
        for v in 2..sheet.vertices {
            let right = face(slow::face_to_the_right(&sheet, v));
            assert_eq!(drawing.vertices[v].last as usize + 1, columns[&right], "{sheet:?}");
        }
    }
}

#[test]
fn f20_not_sound() {
    let (mut sound, mut refused) = (0, 0);
    for record in Records::new(146).take(6000).chain([torus(), directed_torus()]) {
        if slow::sound(&record) {
            table_of(&record);
            sound += 1;
        } else {
            assert_eq!(trace_faces(&record), (Err(9), [0; 512]), "{record:?}");
            refused += 1;
        }
    }
    assert!(sound > 800 && refused > 3000, "{sound} {refused}");
    let mut unused = sheet_of(P4);
    unused.nexts[511] = 1;
    assert_eq!(trace_faces(&unused), (Err(9), [0; 512]));
    assert_eq!(trace_faces(&Sheet::blank(2, 2)), (Err(9), [0; 512]));
}
