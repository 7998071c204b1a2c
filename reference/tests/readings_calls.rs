//! The readings of the record, the edits, the drawing and the writers (sections B to D).

mod common;

use common::{lines, plate_words, sheet_of, sheet_words, P4};
use reference::generate::sheets::{parallel, path};
use reference::{
    apply, draw, is_sound, load, put_in, run, take_out_bar, take_out_wire, write_drawing,
    write_sheet, Drawing, Edit, Sheet,
};

/// Every call on a sheet answers 9 and leaves all as it was.
fn assert_all_refuse_9(sheet: &Sheet) {
    assert!(!is_sound(sheet));
    for edit in [Edit::In(0), Edit::Run(0, 0, 1, 0), Edit::Out(999), Edit::Off(usize::MAX)] {
        assert_eq!(apply(sheet, edit), (Err(9), *sheet));
    }
    assert_eq!(draw(sheet), (Err(9), Drawing::zeros()));
    let mut buffer = [b'#'; 9000];
    assert_eq!(write_sheet(sheet, &mut buffer), (Err(9), 0));
    assert_eq!(write_drawing(sheet, &mut buffer), (Err(9), 0));
    assert_eq!(write_sheet(sheet, &mut []), (Err(9), 0));
    assert_eq!(write_drawing(sheet, &mut []), (Err(9), 0));
    assert_eq!(buffer, [b'#'; 9000]);
}

/// The fresh sheet with one change.
fn changed(change: impl Fn(&mut Sheet)) -> Sheet {
    let mut sheet = Sheet::fresh();
    change(&mut sheet);
    assert_ne!(sheet, Sheet::fresh());
    sheet
}

#[test]
fn b1_unused_entries() {
    assert!(is_sound(&Sheet::fresh()));
    assert_all_refuse_9(&changed(|sheet| sheet.tails[2] = 1));
    assert_all_refuse_9(&changed(|sheet| sheet.heads[255] = 1));
    assert_all_refuse_9(&changed(|sheet| sheet.nexts[4] = 4));
    assert_all_refuse_9(&changed(|sheet| sheet.nexts[511] = 65_535));
}

#[test]
fn b2_out_of_limits() {
    for count in [0, 1, 3, 129, 200, 256, 257, 65_535, 65_536, usize::MAX / 2 + 2, usize::MAX] {
        assert_all_refuse_9(&changed(|sheet| sheet.vertices = count));
        assert_all_refuse_9(&changed(|sheet| sheet.edges = count));
    }
    for entry in [2, 4, 128, 512, 65_535] {
        assert_all_refuse_9(&changed(|sheet| sheet.tails[1] = entry));
        assert_all_refuse_9(&changed(|sheet| sheet.heads[0] = entry));
        assert_all_refuse_9(&changed(|sheet| sheet.nexts[3] = entry));
    }
}

#[test]
fn b3_a_bar_with_no_ends() {
    assert_all_refuse_9(&changed(|sheet| sheet.vertices = 3));
}

#[test]
fn b4_rules_on_the_whole_record() {
    // Equal bars; wire 0 turned; a circle; two rings at a bar; a ring of two bars' ends.
    assert_all_refuse_9(&changed(|sheet| sheet.heads[1] = 0));
    assert_all_refuse_9(&changed(|sheet| (sheet.tails[0], sheet.heads[0]) = (1, 0)));
    assert_all_refuse_9(&changed(|sheet| {
        (sheet.tails[1], sheet.heads[1]) = (1, 0);
        sheet.nexts[..4].copy_from_slice(&[3, 2, 1, 0]);
    }));
    assert_all_refuse_9(&changed(|sheet| (sheet.nexts[0], sheet.nexts[2]) = (0, 2)));
    assert_all_refuse_9(&changed(|sheet| sheet.nexts[..4].copy_from_slice(&[3, 2, 1, 0])));
    assert_all_refuse_9(&changed(|sheet| sheet.nexts[0] = 0));
    // Three twisted wires: one face.
    let mut twisted = parallel(3);
    twisted.nexts[..6].copy_from_slice(&[2, 3, 4, 5, 0, 1]);
    assert_all_refuse_9(&twisted);
}

#[test]
fn b5_load_and_read_edit_are_not_calls_on_a_sheet() {
    let bad = Sheet::blank(0, 0);
    assert_eq!(load(&lines("bars=129"), &bad), (Err(2), bad, 0));
    assert_eq!(reference::read_edit(b"in=1\n"), (Ok(Edit::In(1)), 5));
}

#[test]
fn c1_orders_of_refusal() {
    let wide = parallel(256);
    let long = path(128);
    assert!(is_sound(&wide) && is_sound(&long));
    for full in [&wide, &long] {
        assert_eq!(put_in(full, 0).0, Err(12));
        assert_eq!(put_in(full, 1).0, Err(11));
        assert_eq!(put_in(full, full.edges - 1).0, Err(11));
        assert_eq!(put_in(full, full.edges).0, Err(10));
    }
    // Rings 0,1,2,... at bar 0 and 0,255,254,... at bar 1: the corner after wire k at bar 0 lies
    // between wires k and k + 1, that after wire k at bar 1 between wires k - 1 and k.
    assert_eq!(run(&wide, 0, 5, 1, 6).0, Err(11));
    assert_eq!(run(&wide, 0, 5, 1, 5).0, Err(13));
    assert_eq!(run(&wide, 1, 6, 0, 5).0, Err(14));
    assert_eq!(run(&wide, 0, 5, 1, 256).0, Err(10));
    // 128 bars are no bar to a run: along the path, beside wire 0.
    let (answer, more) = run(&long, 0, 1, 1, 0);
    assert_eq!((answer, more.vertices, more.edges), (Ok(()), 128, 129));
}

#[test]
fn c2_run_with_a_equal_b() {
    let three = parallel(3);
    assert_eq!(run(&three, 0, 1, 0, 2).0, Err(13));
    assert_eq!(run(&three, 0, 1, 0, 1).0, Err(14));
    assert_eq!(run(&three, 1, 1, 1, 1).0, Err(14));
    assert_eq!(run(&Sheet::fresh(), 0, 0, 0, 1).0, Err(13));
}

#[test]
fn c3_10_before_13() {
    let sheet = sheet_of(P4);
    assert_eq!(run(&sheet, 0, 2, 9, 9).0, Err(10));
    assert_eq!(run(&sheet, 0, 2, 1, 6).0, Err(10));
    assert_eq!(run(&sheet, 4, 2, 1, 1).0, Err(10));
    assert_eq!(run(&sheet, 0, 6, 1, 1).0, Err(10));
    assert_eq!(run(&sheet, 0, 2, 1, 0).0, Err(13));
    assert_eq!(run(&sheet, 0, 0, 1, 1).0, Err(13));
}

#[test]
fn c5_the_last_wire_gets_the_number() {
    let (answer, sheet) = take_out_wire(&parallel(4), 1);
    assert_eq!(answer, Ok(()));
    let expected = "bars=2 wires=3 wire=0,1 wire=0,1 wire=0,1 around=0,2,1 around=0,1,2";
    assert_eq!(sheet_words(&sheet), expected);
    assert_eq!((sheet.nexts[6], sheet.nexts[7], sheet.heads[3]), (0, 0, 0));
    let (answer, sheet) = take_out_wire(&parallel(4), 3);
    assert_eq!(answer, Ok(()));
    let expected = "bars=2 wires=3 wire=0,1 wire=0,1 wire=0,1 around=0,1,2 around=0,2,1";
    assert_eq!(sheet_words(&sheet), expected);
}

#[test]
fn c6_off() {
    let two_paths = "bars=4 wires=5 wire=0,1 wire=0,2 wire=2,1 wire=0,3 wire=3,1 \
        around=1,3,0 around=0,4,2 around=1,2 around=3,4";
    let (answer, sheet) = take_out_bar(&sheet_of(two_paths), 2);
    assert_eq!(answer, Ok(()));
    let expected = "bars=3 wires=4 wire=0,1 wire=0,1 wire=2,1 wire=0,2 \
        around=0,1,3 around=0,2,1 around=2,3";
    assert_eq!(sheet_words(&sheet), expected);
    // The incoming wire is the last one: it takes the freed number.
    let last_comes_in =
        "bars=3 wires=3 wire=0,1 wire=2,1 wire=0,2 around=0,2 around=0,1 around=1,2";
    assert_eq!(take_out_bar(&sheet_of(last_comes_in), 2), (Ok(()), Sheet::fresh()));
    // The outgoing wire is the last one.
    let last_goes_out =
        "bars=3 wires=3 wire=0,1 wire=0,2 wire=2,1 around=0,1 around=0,2 around=1,2";
    assert_eq!(take_out_bar(&sheet_of(last_goes_out), 2), (Ok(()), Sheet::fresh()));
}

#[test]
fn put_in_and_run_rings() {
    let (answer, three) = put_in(&Sheet::fresh(), 1);
    assert_eq!(answer, Ok(()));
    let expected = "bars=3 wires=3 wire=0,1 wire=0,2 wire=2,1 around=0,1 around=0,2 around=1,2";
    assert_eq!(sheet_words(&three), expected);
    let (answer, four) = run(&three, 0, 1, 2, 2);
    assert_eq!(answer, Ok(()));
    let expected = "bars=3 wires=4 wire=0,1 wire=0,2 wire=2,1 wire=0,2 \
        around=0,1,3 around=0,2 around=1,2,3";
    assert_eq!(sheet_words(&four), expected);
}

#[test]
fn c7_out_with_two_wires() {
    assert_eq!(take_out_wire(&Sheet::fresh(), 1), (Err(15), Sheet::fresh()));
    assert_eq!(take_out_wire(&parallel(3), 1).0, Ok(()));
    assert_eq!(take_out_wire(&parallel(3), 0).0, Err(12));
}

#[test]
fn c9_numbers_of_any_size() {
    let sheet = sheet_of(P4);
    for number in [6, 255, 256, 65_536, 65_537, 1 << 32, usize::MAX / 2 + 1, usize::MAX] {
        for edit in [
            Edit::In(number),
            Edit::Out(number),
            Edit::Off(number),
            Edit::Run(number, 0, 1, 0),
            Edit::Run(0, number, 1, 0),
            Edit::Run(0, 0, number, 0),
            Edit::Run(0, 0, 1, number),
        ] {
            assert_eq!(apply(&sheet, edit), (Err(10), sheet), "{edit:?}");
        }
    }
}

#[test]
fn sixteen() {
    let sheet = sheet_of(P4);
    for v in 0..4 {
        assert_eq!(take_out_bar(&sheet, v), (Err(16), sheet));
    }
    let three = put_in(&Sheet::fresh(), 1).1;
    assert_eq!(
        [0, 1, 2, 3].map(|v| take_out_bar(&three, v).0),
        [Err(16), Err(16), Ok(()), Err(10)]
    );
}

#[test]
fn d1_wire_0_is_at_the_right() {
    let drawing = draw(&parallel(9)).1;
    assert_eq!(drawing.edges[0].column, 8);
    assert_eq!(
        (1..9).map(|k| drawing.edges[k].column).collect::<Vec<_>>(),
        [0, 1, 2, 3, 4, 5, 6, 7]
    );
}

#[test]
fn d2_256_columns_and_128_rows() {
    let (answer, drawing) = draw(&parallel(256));
    assert_eq!((answer, drawing.rows, drawing.columns), (Ok(()), 2, 256));
    assert_eq!((drawing.edges[0].column, drawing.edges[255].column), (255, 254));
    let (answer, drawing) = draw(&path(128));
    assert_eq!((answer, drawing.rows, drawing.columns), (Ok(()), 128, 2));
    assert_eq!((drawing.edges[0].low, drawing.edges[0].high), (0, 127));
}

#[test]
fn d3_and_d4_buffers() {
    let fresh = Sheet::fresh();
    let mut buffer = [b'#'; 60];
    for length in 0..55 {
        assert_eq!(write_sheet(&fresh, &mut buffer[..length]), (Err(17), 0));
        assert_eq!(write_drawing(&fresh, &mut buffer[..length]), (Err(17), 0));
    }
    assert_eq!(buffer, [b'#'; 60]);
    assert_eq!(write_sheet(&fresh, &mut buffer[..55]), (Ok(()), 55));
    assert_eq!(buffer[..55], lines(common::FRESH));
    assert_eq!(buffer[55..], *b"#####");
    let mut buffer = [b'#'; 60];
    assert_eq!(write_drawing(&fresh, &mut buffer[..58]), (Err(17), 0));
    assert_eq!(buffer, [b'#'; 60]);
    assert_eq!(write_drawing(&fresh, &mut buffer), (Ok(()), 59));
    assert_eq!(buffer[..59], lines(common::FRESH_DRAWN));
    assert_eq!(buffer[59], b'#');
}

#[test]
fn d5_rings_are_turned_not_sorted() {
    let written = "bars=4 wires=6 wire=0,1 wire=0,2 wire=2,1 wire=0,3 wire=3,1 wire=2,3 \
        around=0,1,3 around=0,4,2 around=1,2,5 around=3,5,4";
    assert_eq!(sheet_words(&sheet_of(P4)), written);
}

#[test]
fn d6_written_drawing_is_what_plate_prints() {
    assert_eq!(common::drawing_words(&sheet_of(P4)), plate_words(P4));
}
