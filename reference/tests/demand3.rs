//! Lists of the five calls from the fresh sheet, and of the second load of C-14: whatever sheet they
//! leave has a drawing without contact, with its rings in clockwise order, within the bounds.
//! "touching, clockwise order and size are claimed of the longer bars" (C-12).

mod common;

use common::{geometry, sheet_of, slow, P4};
use reference::generate::{
    any_edit, any_links, damaged, edits, extreme_sheets, grown, likely_edit, mixed_ends, sheet_text,
};
use reference::generate::{sheets::random_counts, Random};
use reference::{apply, draw, load, load_links, put_in, Answer, Drawing, Sheet};

fn drawn(sheet: &Sheet) -> Drawing {
    let (answer, drawing) = draw(sheet);
    assert_eq!(answer, Ok(()));
    drawing
}

fn assert_drawing(sheet: &Sheet) {
    assert_eq!(geometry::check(sheet, &drawn(sheet)), Ok(()), "{sheet:?}");
}

/// A load of wires or of links, now and then with a text of the other kind.
fn any_load(random: &mut Random, sheet: &Sheet, of_links: bool) -> (Answer, Sheet) {
    let (vertices, edges) = (random.between(2, 9), random.between(9, 20));
    let other = grown(random, vertices, edges);
    let mut text = if of_links == random.one_in(8) {
        let text = sheet_text(random, &other);
        mixed_ends(random, &text)
    } else {
        any_links(random, &other)
    };
    match random.below(8) {
        0 => text.clear(),
        1..=4 => text = damaged(random, &text),
        _ => {}
    }
    let load = if of_links { load_links } else { load };
    let (answer, new, taken) = load(&text, sheet);
    assert_eq!(taken > 0, answer.is_ok() && !text.is_empty());
    assert!(!text.is_empty() || (answer, new) == (Ok(()), Sheet::fresh()));
    (answer, new)
}

/// One call with any text or numbers; refused, it must return the sheet it got.
fn random_call(random: &mut Random, sheet: &Sheet) -> (Answer, Sheet) {
    let (answer, new) = match random.below(20) {
        0 => {
            let of_links = random.one_in(2);
            any_load(random, sheet, of_links)
        }
        1..=3 => {
            let edit = any_edit(random, sheet);
            apply(sheet, edit)
        }
        4..=9 => {
            let edit = edits::run_in_one_face(random, sheet);
            apply(sheet, edit)
        }
        _ => {
            let edit = likely_edit(random, sheet);
            apply(sheet, edit)
        }
    };
    assert!(answer.is_ok() || new == *sheet);
    (answer, new)
}

#[test]
fn lists_of_calls() {
    let random = &mut Random::new(3);
    let mut checked = 0;
    let mut accepted = 0;
    assert_drawing(&Sheet::fresh());
    for _ in 0..600 {
        let mut sheet = Sheet::fresh();
        for _ in 0..random.below(60) {
            let (answer, new) = random_call(random, &sheet);
            accepted += usize::from(answer.is_ok());
            sheet = new;
            if random.one_in(5) {
                assert_drawing(&sheet);
                checked += 1;
            }
        }
        assert_drawing(&sheet);
        checked += 1;
    }
    assert!(checked > 2000 && accepted > 5000, "{checked} {accepted}");
}

/// "Lists of loads and edits may hold this load too."
#[test]
fn lists_with_links() {
    let random = &mut Random::new(34);
    let (mut accepted, mut refused) = (0, [0; 20]);
    for _ in 0..500 {
        let mut sheet = Sheet::fresh();
        for _ in 0..random.below(20) {
            if random.one_in(3) {
                let (answer, new) = any_load(random, &sheet, true);
                assert!(answer.is_ok() || new == sheet);
                match answer {
                    Ok(()) => accepted += 1,
                    Err(number) => refused[usize::from(number)] += 1,
                }
                sheet = new;
                assert_drawing(&sheet);
            } else {
                sheet = random_call(random, &sheet).1;
            }
        }
        assert_drawing(&sheet);
    }
    assert!(accepted > 500, "{accepted}");
    assert!([1, 5, 8, 19].iter().all(|&number| refused[number] > 10), "{refused:?}");
    assert_eq!((refused[6], refused[7]), (0, 0));
}

#[test]
fn lists_that_grow_to_any_size() {
    let random = &mut Random::new(33);
    let mut full = 0;
    for _ in 0..1500 {
        let (vertices, edges) = random_counts(random);
        let mut sheet = grown(random, vertices, edges);
        assert_eq!((sheet.vertices, sheet.edges), (vertices, edges));
        full += usize::from((vertices, edges) == (128, 256));
        assert_drawing(&sheet);
        for _ in 0..random.below(12) {
            sheet = random_call(random, &sheet).1;
        }
        assert_drawing(&sheet);
    }
    assert!(full >= 20, "{full} full sheets");
}

#[test]
fn extreme_sheets_are_drawn() {
    let sheets = extreme_sheets(&mut Random::new(4));
    assert!(sheets.iter().any(|sheet| (sheet.vertices, sheet.edges) == (2, 256)));
    assert!(sheets.iter().any(|sheet| (sheet.vertices, sheet.edges) == (128, 128)));
    assert!(sheets.iter().any(|sheet| (sheet.vertices, sheet.edges) == (128, 256)));
    for sheet in &sheets {
        assert!(slow::sound(sheet));
        assert_drawing(sheet);
    }
}

/// The drawing with one change, which the check must find; tells the fault.
fn fault(sheet: &Sheet, drawing: &Drawing, change: impl Fn(&mut Drawing)) -> String {
    let mut other = *drawing;
    change(&mut other);
    assert_ne!(other, *drawing);
    geometry::check(sheet, &other).unwrap_err()
}

/// The check isn't one that passes all: each change to a drawing is a fault that it must find.
#[test]
fn the_check_finds_faults() {
    let random = &mut Random::new(5);
    for _ in 0..200 {
        let (vertices, edges) = (random.between(3, 20), random.between(24, 40));
        let sheet = grown(random, vertices, edges);
        let drawing = drawn(&sheet);
        let finds = |kind: &str, change: &dyn Fn(&mut Drawing)| {
            let fault = fault(&sheet, &drawing, change);
            assert!(fault.contains(kind), "{fault}");
        };
        let k = random.below(edges);
        let v = random.below(vertices);
        finds("200 rows", &|drawing| drawing.rows = 200);
        finds("300 columns", &|drawing| drawing.columns = 300);
        finds("wire", &|drawing| drawing.edges[k].high += 1);
        finds("wire", &|drawing| drawing.edges[k].low = drawing.edges[k].high);
        finds("bar", &|drawing| drawing.vertices[v].row += 1);
        finds("wire 200", &|drawing| drawing.edges[200].column = 1);
        finds("bar 100", &|drawing| drawing.vertices[100].row = 1);
        // Bar 0 without its last column loses wire 0.
        finds("off its bars", &|drawing| drawing.vertices[0].last -= 1);
        // All columns mirrored: the rings of three or more wires come out in reverse order.
        let mirror = |drawing: &mut Drawing| {
            let last = drawing.columns - 1;
            for bar in &mut drawing.vertices[..vertices] {
                (bar.first, bar.last) = (last - bar.last, last - bar.first);
            }
            for wire in &mut drawing.edges[..edges] {
                wire.column = last - wire.column;
            }
        };
        finds("order at bar", &mirror);
    }
}

/// A bar but 0 and 1 can be neither longer nor shorter: one column more touches its right neighbour,
/// and the end of the 1985 paper, the greatest column of its wires, is short of it.
#[test]
fn the_check_finds_other_lengths() {
    let random = &mut Random::new(6);
    let mut shortened = 0;
    for _ in 0..300 {
        let (vertices, edges) = random_counts(random);
        let sheet = grown(random, vertices, edges);
        let drawing = drawn(&sheet);
        for v in 2..vertices {
            let longer = fault(&sheet, &drawing, |drawing| drawing.vertices[v].last += 1);
            let touches = longer.contains(" and ") && longer.contains(&format!("Bar({v})"));
            assert!(touches, "{longer}");
            let own = |&k: &usize| [sheet.tails[k], sheet.heads[k]].contains(&(v as u16));
            let columns = (0..edges).filter(own).map(|k| drawing.edges[k].column);
            let paper = columns.max().expect("a bar has wires");
            for last in paper..drawing.vertices[v].last {
                let short = fault(&sheet, &drawing, |drawing| drawing.vertices[v].last = last);
                assert!(short.starts_with(&format!("length of bar {v}:")), "{short}");
                shortened += 1;
            }
        }
    }
    assert!(shortened > 1000, "{shortened}");
}

/// Contact of each forbidden kind, one by one, on the drawing of three wires in a chain beside
/// wire 0.
#[test]
fn the_check_finds_each_contact() {
    let sheet = reference::generate::sheets::path(4);
    let good = drawn(&sheet);
    assert_eq!(geometry::check(&sheet, &good), Ok(()));
    // Bar 2 grows over to wire 0; wire 0 moves into the column of the others.
    let grown = fault(&sheet, &good, |drawing| drawing.vertices[2].last = 1);
    assert_eq!(grown, "Bar(2) and Wire(0) at (2, 2)");
    let moved = fault(&sheet, &good, |drawing| drawing.edges[0].column = 0);
    assert_eq!(moved, "Wire(0) and Wire(1) at (0, 0)");
    // Bars 2 and 3 in one row, with the wires to match: wire 2 would run level.
    let level = fault(&sheet, &good, |drawing| {
        drawing.vertices[3].row = 1;
        (drawing.edges[2].high, drawing.edges[3].low) = (1, 1);
    });
    assert!(level.starts_with("wire 2:"), "{level}");
}

/// The same on plate P4 with `in=1`, whose bar 4 lies in row 1 from column 0 to 1 with its wires in
/// column 0, beside wire 3 in column 2; points have both coordinates doubled.
#[test]
fn the_check_looks_at_all_of_a_longer_bar() {
    let sheet = put_in(&sheet_of(P4), 1).1;
    let good = drawn(&sheet);
    assert_eq!(geometry::check(&sheet, &good), Ok(()));
    let longer = fault(&sheet, &good, |drawing| drawing.vertices[4].last = 2);
    assert_eq!(longer, "Bar(4) and Wire(3) at (4, 2)");
    let paper = fault(&sheet, &good, |drawing| drawing.vertices[4].last = 0);
    assert!(paper.starts_with("length of bar 4:"), "{paper}");
    // Wire 3 in column 1 keeps its ends on bars 0 and 3 and goes through the longer part of bar 4.
    let through = fault(&sheet, &good, |drawing| drawing.edges[3].column = 1);
    assert_eq!(through, "Bar(4) and Wire(3) at (2, 2)");
    // With `in=3` too, bar 5 is the point in row 1 and column 2: the right neighbour of bar 4.
    let sheet = put_in(&sheet, 3).1;
    let longer = fault(&sheet, &drawn(&sheet), |drawing| drawing.vertices[4].last = 2);
    assert_eq!(longer, "Bar(4) and Bar(5) at (4, 2)");
}

/// Bars 0 and 1 end with wire 0. Two wires from bar 0 to bar 2 and two from there to bar 1, beside
/// wire 0, need 3 columns of at most 4, so a longer bar 0 or 1 touches nothing.
#[test]
fn the_check_finds_longer_bars_0_and_1() {
    let sheet = sheet_of(
        "bars=3 wires=5 wire=0,1 wire=0,2 wire=2,1 wire=0,2 wire=2,1 \
        around=0,1,3 around=0,4,2 around=1,2,4,3",
    );
    let good = drawn(&sheet);
    assert_eq!((good.columns, geometry::check(&sheet, &good)), (3, Ok(())));
    for v in [0, 1] {
        let longer = fault(&sheet, &good, |drawing| {
            drawing.columns = 4;
            drawing.vertices[v].last = 3;
        });
        assert!(longer.starts_with(&format!("length of bar {v}:")), "{longer}");
    }
}
