//! The readings of C-17: the insulation mask. "For each face there is an upright segment half a column left
//! of its column. For each wire but 0 there is a level segment half a row above the tail's row, from its
//! left face's segment to its right face's. A face segment runs from the lowest to the highest of the level
//! segments that end on it."

mod common;

use common::{drawn_sheets, geometry, sheet_of, slow, FRESH, P4};
use reference::generate::sheets::{parallel, path};
use reference::generate::{any_edit, directed_torus, grown, likely_edit, torus, Random, Records};
use reference::mask::halves;
use reference::MaskSegment::{Level, Upright};
use reference::{
    apply, check_insulation, draw, insulation_mask, mask_in_halves, put_in, Drawing, Frame, Mask,
    MaskSegment, Sheet, MAX_SEGMENTS,
};

/// The mask of a sound sheet in halves; in floats it is the same.
fn mask_of(sheet: &Sheet) -> Mask<i32> {
    let (answer, mask) = mask_in_halves(sheet);
    assert_eq!(answer, Ok(()), "{sheet:?}");
    let (answer, floats) = insulation_mask(sheet);
    assert_eq!((answer, floats), (Ok(()), mask.map(|number| number as f32 / 2.0)));
    mask
}

/// The mask in floats, with these segments and this frame, and zeros past them.
fn assert_mask(sheet: &Sheet, segments: &[MaskSegment<f32>], frame: [f32; 4]) {
    let (answer, mask) = insulation_mask(sheet);
    assert_eq!((answer, mask.count), (Ok(()), segments.len()));
    assert_eq!(mask.used(), segments);
    assert!(mask.segments[mask.count..].iter().all(|&entry| entry == Upright(0.0, 0.0, 0.0)));
    let [least_x, greatest_x, least_y, greatest_y] = frame;
    assert_eq!(mask.frame, Frame { least_x, greatest_x, least_y, greatest_y });
    assert_insulated(sheet, &draw(sheet).1, &mask_of(sheet));
}

/// Plate and mask meet where they may, and nowhere else: by pairs of segments and by points.
fn assert_insulated(sheet: &Sheet, drawing: &Drawing, mask: &Mask<i32>) {
    assert_eq!(check_insulation(sheet, drawing, mask.used()), Ok(()), "{sheet:?}");
    assert_eq!(geometry::check_insulation(sheet, drawing, mask.used()), Ok(()), "{sheet:?}");
}

/// Whether they do; both ways must say so.
fn is_insulated(sheet: &Sheet, drawing: &Drawing, mask: &[MaskSegment<i32>]) -> bool {
    let found = check_insulation(sheet, drawing, mask).is_ok();
    assert_eq!(found, geometry::check_insulation(sheet, drawing, mask).is_ok(), "{mask:?}");
    found
}

/// P1: rows 0 and 1, wire 1 in column 0, wire 0 in column 1. The walks that leave by ends 0 and 3, up wire
/// 0 and down wire 1, are one face, left of wire 0: in column 1, so at ½. The other, by ends 1 and 2, is left
/// of wire 1: in column 0, at -½. The one level segment is wire 1's, half a row above row 0, from the face
/// left of it at -½ to the face right of it at ½. Both faces end at its height.
#[test]
fn the_fresh_sheet_by_hand() {
    let segments = [Upright(0.5, 0.5, 0.5), Upright(-0.5, 0.5, 0.5), Level(0.5, -0.5, 0.5)];
    assert_mask(&Sheet::fresh(), &segments, [-0.5, 0.5, 0.5, 0.5]);
    assert_eq!(sheet_of(FRESH), Sheet::fresh());
}

/// P2: columns of wires 0, 1, 2 are 2, 0, 1. The faces by their lowest ends: 0, 5, left of wire 0 and right of
/// wire 2, in column 2; 1, 2, right of wire 0 and left of wire 1, in column 0; 3, 4, right of wire 1 and left
/// of wire 2, in column 1. Both level segments lie half a row above row 0: wire 1's from -½ to ½, wire 2's
/// from ½ to 1½.
#[test]
fn p2_by_hand() {
    let wires = "bars=2 wires=3 wire=0,1 wire=0,1 wire=0,1";
    let p2 = sheet_of(&format!("{wires} around=0,1,2 around=0,2,1"));
    let faces = [Upright(1.5, 0.5, 0.5), Upright(-0.5, 0.5, 0.5), Upright(0.5, 0.5, 0.5)];
    let levels = [Level(0.5, -0.5, 0.5), Level(0.5, 0.5, 1.5)];
    assert_mask(&p2, &[&faces[..], &levels].concat(), [-0.5, 1.5, 0.5, 0.5]);
}

/// P4: bars 0 to 3 lie in rows 0, 3, 1, 2; wires 0 to 5 stand in columns 3, 0, 0, 2, 1, 1. The faces, by the
/// ends of the test of the table of faces, the wires on their left first:
/// - 0, 9, 7 is left of wire 0, in column 3, right of wires 4 and 3;
/// - 1, 2, 4 is left of wires 1 and 2, in column 0;
/// - 3, 6, 11 is left of wire 3, in column 2, right of wires 1 and 5;
/// - 5, 10, 8 is left of wires 5 and 4, in column 1, right of wire 2.
///
/// The level segments:
/// - wire 1 begins at bar 0, so at ½ up; from the second face, at -½, to the third, at 1½;
/// - wire 2 begins at bar 2, so at 1½; from the second face to the fourth, at ½;
/// - wire 3 begins at bar 0: at ½; from the third face to the first, at 2½;
/// - wire 4 begins at bar 3: at 2½; from the fourth face to the first;
/// - wire 5 begins at bar 2: at 1½; from the fourth face to the third.
///
/// On the first face end those of wires 3 and 4, on the second 1 and 2, on the third 1, 3 and 5, on the
/// fourth 2, 4 and 5.
#[test]
fn p4_by_hand() {
    let faces = [
        Upright(2.5, 0.5, 2.5),
        Upright(-0.5, 0.5, 1.5),
        Upright(1.5, 0.5, 1.5),
        Upright(0.5, 1.5, 2.5),
    ];
    let levels = [
        Level(0.5, -0.5, 1.5),
        Level(1.5, -0.5, 0.5),
        Level(0.5, 1.5, 2.5),
        Level(2.5, 0.5, 2.5),
        Level(1.5, 0.5, 1.5),
    ];
    assert_mask(&sheet_of(P4), &[&faces[..], &levels].concat(), [-0.5, 2.5, 0.5, 2.5]);
}

/// "This covers the longer bars of C-12." After `in=1` bar 4 lies in row 1, bars 2, 3 and 1 a row higher than
/// before. Wire 6 begins at bar 4, its level segment half a row above row 1; it has the second face to its
/// left and the third to its right, as wire 1. Bar 4 goes from column 0 to 1: short of the third face's
/// segment at 1½, and below the fourth's at ½, which begins at 2½.
#[test]
fn p4_with_a_longer_bar_by_hand() {
    let (answer, sheet) = put_in(&sheet_of(P4), 1);
    assert_eq!(answer, Ok(()));
    let bar = draw(&sheet).1.vertices[4];
    assert_eq!((bar.row, bar.first, bar.last), (1, 0, 1));
    let faces = [
        Upright(2.5, 0.5, 3.5),
        Upright(-0.5, 0.5, 2.5),
        Upright(1.5, 0.5, 2.5),
        Upright(0.5, 2.5, 3.5),
    ];
    let levels = [
        Level(0.5, -0.5, 1.5),
        Level(2.5, -0.5, 0.5),
        Level(0.5, 1.5, 2.5),
        Level(3.5, 0.5, 2.5),
        Level(2.5, 0.5, 1.5),
        Level(1.5, -0.5, 1.5),
    ];
    assert_mask(&sheet, &[&faces[..], &levels].concat(), [-0.5, 2.5, 0.5, 3.5]);
}

/// A bar but 0 and 1 that ended one column further would meet the segment of the face to its right, and one
/// that ended with its wires would meet no more than ours.
#[test]
fn f8_the_longer_bars() {
    let random = &mut Random::new(181);
    let mut longer = 0;
    for (sheet, drawing) in drawn_sheets(182) {
        let mask = mask_of(&sheet);
        if sheet.vertices > 2 {
            let mut new = drawing;
            let v = random.between(2, sheet.vertices - 1);
            new.vertices[v].last += 1;
            assert!(!is_insulated(&sheet, &new, mask.used()), "bar {v} of {sheet:?}");
        }
        let mut new = drawing;
        for v in 2..sheet.vertices {
            let own = (0..sheet.edges).filter(|&k| sheet.dart_at(k, v).is_some());
            let last = own.map(|k| drawing.edges[k].column).max();
            new.vertices[v].last = last.expect("a bar has wires");
        }
        longer += usize::from(new != drawing);
        assert_insulated(&sheet, &new, &mask);
    }
    assert!(longer > 200, "{longer}");
}

/// "a frame holds the least and greatest x and y of all mask segments": least x, greatest x, least y,
/// greatest y. The right face of wire 0 is in column 0, the left one in the last; some wire but 0 begins at
/// bar 0, and one a row below bar 1.
#[test]
fn f28_the_frame() {
    for (sheet, drawing) in drawn_sheets(183) {
        let mask = mask_of(&sheet);
        let ends = || mask.used().iter().flat_map(|segment| segment.ends());
        let Frame { least_x, greatest_x, least_y, greatest_y } = mask.frame;
        let within = |number, least, greatest| (least..=greatest).contains(&number);
        assert!(
            ends().all(|(x, y)| within(x, least_x, greatest_x) && within(y, least_y, greatest_y))
        );
        assert!([least_x, greatest_x].iter().all(|&bound| ends().any(|(x, _)| x == bound)));
        assert!([least_y, greatest_y].iter().all(|&bound| ends().any(|(_, y)| y == bound)));
        let [last_column, last_row] =
            [drawing.columns, drawing.rows].map(|count| i32::from(count) - 1);
        assert_eq!((least_x, greatest_x), (-1, 2 * last_column - 1));
        assert_eq!((least_y, greatest_y), (1, 2 * last_row - 1));
    }
}

/// A face all of whose level segments have one height has an upright of one point.
#[test]
fn f29_segments_of_one_point() {
    let mut points = 0;
    for (sheet, _) in drawn_sheets(184) {
        let mask = mask_of(&sheet);
        let faces = mask.count + 1 - sheet.edges;
        for segment in &mask.used()[..faces] {
            let &Upright(_, low, high) = segment else { panic!("{segment:?} of a face") };
            assert!(low <= high);
            points += usize::from(low == high);
        }
    }
    assert!(points > 3_000, "{points}");
    let mask = mask_of(&parallel(256));
    assert_eq!((mask.count, mask.segments.len(), MAX_SEGMENTS), (511, 511, 511));
    assert!(mask.used()[..256].iter().all(|segment| matches!(segment, Upright(_, 1, 1))));
}

/// "from its left face's segment to its right face's": the left face's is always left of the other.
#[test]
fn f30_from_left_to_right() {
    for (sheet, _) in drawn_sheets(185) {
        let mask = mask_of(&sheet);
        let faces = mask.count + 1 - sheet.edges;
        for segment in &mask.used()[faces..] {
            assert!(matches!(segment, Level(_, left, right) if left < right), "{segment:?}");
        }
    }
}

#[test]
fn f31_uprights_of_zeros_past_the_last() {
    for (sheet, _) in drawn_sheets(186) {
        let mask = mask_of(&sheet);
        assert_eq!(mask.count, sheet.edges + 2 - sheet.vertices + sheet.edges - 1);
        assert!(mask.segments[mask.count..].iter().all(|&entry| entry == Upright(0, 0, 0)));
    }
}

/// Nothing is claimed of mask segments among themselves; but a level segment ends on the two segments of its
/// faces, and each of these has a level segment at either end.
#[test]
fn f32_level_segments_end_on_uprights() {
    for (sheet, _) in drawn_sheets(187) {
        let mask = mask_of(&sheet);
        let table = reference::trace_faces(&sheet).1;
        let (faces, levels) = mask.used().split_at(mask.count + 1 - sheet.edges);
        let mut heights = vec![Vec::new(); faces.len()];
        for (i, &level) in levels.iter().enumerate() {
            for (side, (x, y)) in level.ends().into_iter().enumerate() {
                let face = table[2 * (i + 1) + side] as usize;
                let [(column, low), (_, high)] = faces[face].ends();
                assert!(x == column && (low..=high).contains(&y), "{level:?} and face {face}");
                heights[face].push(y);
            }
        }
        for (face, heights) in faces.iter().zip(&heights) {
            assert!(face.ends().iter().all(|(_, y)| heights.contains(y)), "{face:?}");
        }
    }
}

/// "It has to be shown that each wire but 0 crosses its own level segment in one point, and that mask and
/// plate segments meet nowhere else."
#[test]
fn f33_insulated() {
    for (sheet, drawing) in drawn_sheets(188) {
        assert_insulated(&sheet, &drawing, &mask_of(&sheet));
    }
    let random = &mut Random::new(189);
    for _ in 0..100 {
        let mut sheet = Sheet::fresh();
        for _ in 0..40 {
            let edit = if random.one_in(4) {
                any_edit(random, &sheet)
            } else {
                likely_edit(random, &sheet)
            };
            sheet = apply(&sheet, edit).1;
            assert_insulated(&sheet, &draw(&sheet).1, &mask_of(&sheet));
        }
    }
}

/// The mask with one number of one segment another one.
fn with_another_number(random: &mut Random, mask: &Mask<i32>) -> Vec<MaskSegment<i32>> {
    let mut segments = mask.used().to_vec();
    let segment = &mut segments[random.below(mask.count)];
    let (Upright(a, b, c) | Level(a, b, c)) = segment;
    let number = match random.below(3) {
        0 => a,
        1 => b,
        _ => c,
    };
    *number += random.pick(&[-3, -2, -1, 1, 2, 3]);
    segments
}

/// Most masks with another number are found out, by pairs of segments exactly where by points.
#[test]
fn f33_masks_with_another_number() {
    let random = &mut Random::new(190);
    let (mut found, mut passed) = (0, 0);
    for _ in 0..1_500 {
        let vertices = random.between(2, 12);
        let edges = vertices + random.below(12);
        let sheet = grown(random, vertices, edges);
        let (drawing, mask) = (draw(&sheet).1, mask_of(&sheet));
        for _ in 0..6 {
            let segments = with_another_number(random, &mask);
            match is_insulated(&sheet, &drawing, &segments) {
                true => passed += 1,
                false => found += 1,
            }
        }
    }
    assert!(found > 4_000 && passed > 1_000, "{found} {passed}");
}

/// On P4: what each change of a number does.
#[test]
fn f33_changes_of_p4() {
    let sheet = sheet_of(P4);
    let (drawing, mask) = (draw(&sheet).1, mask_of(&sheet));
    let insulated_with = |i: usize, segment: MaskSegment<i32>| {
        let mut segments = mask.used().to_vec();
        assert!(segments[i] != segment);
        segments[i] = segment;
        is_insulated(&sheet, &drawing, &segments)
    };
    // The fourth face's segment down to row 1: bar 2 goes from column 0 to 1 there.
    assert!(!insulated_with(3, Upright(1, 2, 5)));
    // The first face's segment in column 2, where wire 3 stands, or past the plate.
    assert!(!insulated_with(0, Upright(4, 1, 5)));
    assert!(insulated_with(0, Upright(9, 1, 5)));
    // Wire 5's level segment on bar 2, where wire 5 begins, on bar 3, where it ends, or above both; then from
    // its column on, and up to it.
    for level in [Level(2, 1, 3), Level(4, 1, 3), Level(5, 1, 3), Level(3, 2, 3), Level(3, 1, 2)] {
        assert!(!insulated_with(8, level), "{level:?}");
    }
    // Wire 1's level segment too short for its wire, or far enough for wire 3.
    assert!(insulated_with(4, Level(1, -1, 1)));
    assert!(!insulated_with(4, Level(1, 1, 3)));
    assert!(!insulated_with(4, Level(1, -1, 4)));
    // An upright segment along wire 5.
    assert!(!insulated_with(8, Upright(2, 3, 3)));
    assert!(!insulated_with(3, Upright(2, 3, 3)));
    // From its upper end to its lower one.
    assert!(!insulated_with(3, Upright(1, 5, 3)));
    // Wire 1 has none.
    let mut segments = mask.used().to_vec();
    segments.remove(4);
    assert!(!is_insulated(&sheet, &drawing, &segments));
    assert!(!is_insulated(&sheet, &drawing, &segments[5..]));
    assert!(!is_insulated(&sheet, &drawing, &[]));
}

/// Wire 0 stands right of the segments of both its faces: half a row above bar 0, between them, a segment
/// would cross all other wires of bar 0 and not wire 0.
#[test]
fn a_level_segment_of_wire_0() {
    for (sheet, drawing) in drawn_sheets(191) {
        let mask = mask_of(&sheet);
        let segments = [&[Level(1, -1, mask.frame.greatest_x)], mask.used()].concat();
        assert!(!is_insulated(&sheet, &drawing, &segments));
        assert!(2 * i32::from(drawing.edges[0].column) > mask.frame.greatest_x);
    }
}

/// "Wire 0's own level segment is left out, which avoids the anomaly that the paper describes": "(s,t) does
/// not intersect with its dual; instead, the line segment representing t intersects the segment representing
/// the left face of (s,t)." In the paper's layout that dual lies half a row above bar 1, and face 0, left of
/// wire 0, reaches up to it.
#[test]
fn the_anomaly_of_wire_0() {
    for (sheet, drawing) in drawn_sheets(191) {
        let mask = mask_of(&sheet);
        let Upright(x, low, _) = mask.segments[0] else { panic!("face 0 is upright") };
        let above = 2 * i32::from(drawing.rows) - 1;
        let longer = [&[Upright(x, low, above)], &mask.used()[1..]].concat();
        assert_eq!(
            check_insulation(&sheet, &drawing, &longer),
            Err("segment 0 meets bar 1".to_string())
        );
        assert!(!is_insulated(&sheet, &drawing, &longer));
        let own = [&[Level(above, -1, x)], mask.used()].concat();
        assert!(is_insulated(&sheet, &drawing, &own));
    }
}

/// "Segments come in this order: faces by the lowest end that a walk of theirs leaves its bar by, then wires
/// from 1 up."
#[test]
fn the_order_of_segments() {
    for (sheet, drawing) in drawn_sheets(192) {
        let mask = mask_of(&sheet);
        let lowest = |&end: &usize| slow::face_of(&sheet, end) == end;
        let columns = slow::face_columns(&sheet);
        let mut i = 0;
        for end in (0..2 * sheet.edges).filter(lowest) {
            let x = 2 * columns[&end] as i32 - 1;
            assert!(matches!(mask.segments[i], Upright(found, _, _) if found == x));
            i += 1;
        }
        for wire in &drawing.edges[1..sheet.edges] {
            let (x, y) = (2 * i32::from(wire.column) - 1, 2 * i32::from(wire.low) + 1);
            assert!(matches!(mask.segments[i], Level(height, left, _) if (left, height) == (x, y)));
            i += 1;
        }
        assert_eq!(i, mask.count);
    }
}

/// "All halves come out exact: twice each float is the whole number it stands for." All of them are odd.
#[test]
fn all_halves_are_exact() {
    let (mut widest, mut highest) = (0.0, 0.0);
    for (sheet, _) in drawn_sheets(193) {
        let (mask, whole) = (insulation_mask(&sheet).1, mask_of(&sheet));
        assert_eq!(mask.map(|float| halves(float).expect("a whole number of halves")), whole);
        assert!(whole
            .used()
            .iter()
            .flat_map(|segment| segment.ends())
            .all(|(x, y)| x % 2 != 0 && y % 2 != 0));
        widest = mask.frame.greatest_x.max(widest);
        highest = mask.frame.greatest_y.max(highest);
    }
    assert_eq!((widest, highest), (254.5, 126.5));
    assert_eq!(insulation_mask(&path(128)).1.frame.greatest_y, 126.5);
}

/// "Refused 9, there are no segments and the frame is four zeros."
#[test]
fn not_sound() {
    let zeros = [0; MAX_SEGMENTS].map(|_| Upright(0.0, 0.0, 0.0));
    let frame = Frame { least_x: 0.0, greatest_x: 0.0, least_y: 0.0, greatest_y: 0.0 };
    let refused = Mask { count: 0, segments: zeros, frame };
    let (mut sound, mut unsound) = (0, 0);
    for record in Records::new(194).take(2500).chain([torus(), directed_torus()]) {
        if slow::sound(&record) {
            mask_of(&record);
            sound += 1;
        } else {
            let (answer, mask) = insulation_mask(&record);
            assert_eq!(answer, Err(9), "{record:?}");
            assert_eq!(mask.map(f32::to_bits), refused.map(f32::to_bits));
            unsound += 1;
        }
    }
    assert!(sound > 300 && unsound > 1200, "{sound} {unsound}");
    let mut unused = sheet_of(P4);
    unused.nexts[511] = 1;
    assert_eq!(insulation_mask(&unused), (Err(9), refused));
    assert_eq!(insulation_mask(&Sheet::blank(77, usize::MAX)), (Err(9), refused));
}
