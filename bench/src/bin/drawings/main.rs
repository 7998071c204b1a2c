//! Time of the check of a drawing's text as a ratio to the reference, and to plain Rust that compares every pair of segments over
//! whole numbers (`pairs.rs`), reading included; all in one run on the same sheets and texts.

mod pairs;

use bench::timing::{several, times};
use reference::generate::drawings::{lengthen, mirror_image, stretched, LARGEST};
use reference::generate::{grown, renumbered, sheets, Random};
use reference::write::drawing_text;
use reference::{draw, Drawing, Sheet};
use std::hint::black_box;

const ROUNDS: usize = 30;

/// A sheet, and the text of a drawing.
type Input = (Sheet, Vec<u8>);

/// The drawing over all rows and columns that there can be, and each bar longer where there is room.
fn pushed_about(random: &mut Random, sheet: &Sheet, drawing: &Drawing) -> Drawing {
    let mut new = stretched(random, sheet, drawing, (LARGEST + 1, LARGEST + 1));
    for v in 0..sheet.vertices {
        lengthen(random, sheet, &mut new, v);
    }
    new
}

/// One kind of drawing for each sheet, all of which get the same answer, as a line of the table.
fn compare(what: &str, answer: u16, sheets: &[Sheet], mut drawing_of: impl FnMut(&Sheet, &Drawing) -> Drawing) {
    let mut input_of = |sheet: &Sheet| (*sheet, drawing_text(sheet, &drawing_of(sheet, &draw(sheet).1)));
    let inputs: Vec<Input> = sheets.iter().map(&mut input_of).collect();
    for (sheet, text) in &inputs {
        assert_eq!([proved::check_drawing(sheet, text), pairs::check_drawing(sheet, text)], [answer; 2], "{what}");
    }
    let calls: [&mut dyn FnMut(&Input); 3] = [
        &mut |(sheet, text)| _ = black_box(proved::check_drawing(sheet, text)),
        &mut |(sheet, text)| _ = black_box(pairs::check_drawing(sheet, text)),
        &mut |(sheet, text)| _ = black_box(reference::check_drawing(sheet, text)),
    ];
    let [proved, plain, reference] = times(ROUNDS, &inputs, calls);
    let bytes = inputs.iter().map(|(_, text)| text.len()).sum::<usize>() / inputs.len();
    println!(
        "| {what} | {bytes} | {proved:.0} ns | {plain:.0} ns | {reference:.0} ns | {:.2} | {:.3} |",
        proved / plain,
        proved / reference
    );
}

fn main() {
    let random = &mut Random::new(4);
    println!("| check of a drawing | bytes | proved | plain Rust, all pairs | reference | proved / plain | proved / reference |");
    println!("|---|---|---|---|---|---|---|");
    for (bars, wires) in [(4, 6), (16, 24), (32, 64), (64, 128), (128, 192), (128, 256), (2, 256)] {
        let sheets = several(|| {
            let sheet = grown(random, bars, wires);
            renumbered(random, &sheet)
        });
        compare(&format!("{bars} bars and {wires} wires, our own"), 0, &sheets, |_, own| *own);
        compare("pushed about, up to column and row 998", 0, &sheets, |sheet, own| pushed_about(random, sheet, own));
        compare("left and right exchanged, refused 22", 22, &sheets, mirror_image);
    }
    let path = sheets::path(128);
    let paths = several(|| renumbered(random, &path));
    compare("a path of 128 bars, our own", 0, &paths, |_, own| *own);
    compare("pushed about, up to column and row 998", 0, &paths, |sheet, own| pushed_about(random, sheet, own));
}
