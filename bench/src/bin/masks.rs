//! Time of the insulation mask as a ratio to plain Rust and to the reference, and to that of write drawing, which is draw and its
//! text; all in one run on the same sheets, small ones and full ones of 256 wires.

use bench::timing::{several, times};
use bench::{nets, plain};
use proved::LentMask;
use reference::generate::{grown, renumbered, Random};
use reference::Sheet;
use std::hint::black_box;

const ROUNDS: usize = 100;

/// The sheets of one kind, as a line of the table.
fn compare(what: &str, sheets: &[Sheet]) {
    let (mut masks, mut buffer) = ([LentMask::full(); 2], vec![0; 16_384]);
    let [a, b] = &mut masks;
    let calls: [&mut dyn FnMut(&Sheet); 4] = [
        &mut |sheet| _ = black_box(proved::insulation_mask_into(sheet, black_box(a))),
        &mut |sheet| _ = black_box(plain::insulation_mask(sheet, black_box(b))),
        &mut |sheet| _ = black_box(reference::insulation_mask(sheet)),
        &mut |sheet| _ = black_box(proved::write_drawing(sheet, &mut buffer)),
    ];
    let [proved, plain, reference, drawing] = times(ROUNDS, sheets, calls);
    let ratios = format!("{:.2} | {:.3}", proved / plain, proved / reference);
    let beside = format!("{drawing:.0} ns | {:.2}", proved / drawing);
    println!("| {what} | {proved:.0} ns | {plain:.0} ns | {reference:.0} ns | {ratios} | {beside} |");
}

fn main() {
    let random = &mut Random::new(5);
    let ratios = "proved / plain | proved / reference";
    println!("| mask | proved | plain Rust | reference | {ratios} | write drawing, proved | mask / write drawing |");
    println!("|---|---|---|---|---|---|---|---|");
    for [bars, wires] in [[2, 2], [4, 6], [16, 24], [32, 64], [64, 128], [128, 192]] {
        let sheets = several(|| {
            let sheet = grown(random, bars, wires);
            renumbered(random, &sheet)
        });
        compare(&format!("{bars} bars and {wires} wires"), &sheets);
    }
    compare("256 wires: 2 bars", &several(|| nets::parallel(random)));
    for bars in [16, 64, 96, 128] {
        compare(&format!("{bars} bars"), &several(|| nets::random(random, bars)));
    }
    compare("a grid of 16 by 8 bars", &several(|| nets::grid(random)));
    compare("a ladder of 2 by 64 bars", &several(|| nets::ladder(random)));
    compare("a path of 127 bars, each joined to bar 0", &several(|| nets::fan(random)));
    compare("a path of 128 bars", &several(|| nets::path(random)));
}
