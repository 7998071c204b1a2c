//! What one trace of all faces saves: time of write drawing, proved and in plain Rust, beside plain Rust that traces inside the
//! column loop; and time of trace faces. All in one run on the same sheets of 256 wires.

mod anew;

use bench::timing::{several, times};
use bench::{nets, plain};
use reference::generate::Random;
use reference::Sheet;
use std::hint::black_box;

const ROUNDS: usize = 100;

/// The steps of a trace from a walk, on average over all walks.
fn steps(sheets: &[Sheet]) -> f64 {
    let lengths: Vec<usize> = sheets.iter().flat_map(nets::lengths).collect();
    let squares: usize = lengths.iter().map(|length| length * length).sum();
    squares as f64 / lengths.iter().sum::<usize>() as f64
}

/// Write drawing, as a line of the table.
fn compare_drawings(what: &str, sheets: &[Sheet]) {
    let mut buffers = [0; 3].map(|_| vec![0; 16_384]);
    let [a, b, c] = &mut buffers;
    let calls: [&mut dyn FnMut(&Sheet); 3] = [
        &mut |sheet| _ = black_box(proved::write_drawing(sheet, a)),
        &mut |sheet| _ = black_box(plain::write_drawing(sheet, b)),
        &mut |sheet| _ = black_box(anew::write_drawing(sheet, c)),
    ];
    let [proved, plain, anew] = times(ROUNDS, sheets, calls);
    let steps = steps(sheets);
    println!("| {what} | {steps:.1} | {proved:.0} ns | {plain:.0} ns | {anew:.0} ns | {:.2} | {:.2} |", anew / plain, proved / plain);
}

/// Trace faces, as a line of the table.
fn compare_tables(what: &str, sheets: &[Sheet]) {
    let calls: [&mut dyn FnMut(&Sheet); 3] = [
        &mut |sheet| _ = black_box(proved::trace_faces(sheet)),
        &mut |sheet| _ = black_box(plain::trace_faces(sheet)),
        &mut |sheet| _ = black_box(reference::trace_faces(sheet)),
    ];
    let [proved, plain, reference] = times(ROUNDS, sheets, calls);
    println!("| {what} | {proved:.0} ns | {plain:.0} ns | {reference:.0} ns | {:.2} | {:.2} |", proved / plain, proved / reference);
}

fn main() {
    let random = &mut Random::new(3);
    let mut rows = vec![("2 bars".to_string(), several(|| nets::parallel(random)))];
    for bars in [16, 64, 96, 128] {
        rows.push((format!("{bars} bars"), several(|| nets::random(random, bars))));
    }
    rows.push(("a grid of 16 by 8 bars".to_string(), several(|| nets::grid(random))));
    rows.push(("a ladder of 2 by 64 bars".to_string(), several(|| nets::ladder(random))));
    rows.push(("a path of 127 bars, each joined to bar 0".to_string(), several(|| nets::fan(random))));
    rows.push(("a path of 128 bars".to_string(), several(|| nets::path(random))));
    println!("| write drawing, 256 wires | steps of a trace | proved | plain Rust | traced in the loop | loop / plain | proved / plain |");
    println!("|---|---|---|---|---|---|---|");
    for (what, sheets) in &rows {
        compare_drawings(what, sheets);
    }
    println!();
    println!("| trace faces, 256 wires | proved | plain Rust | reference | proved / plain | proved / reference |");
    println!("|---|---|---|---|---|---|");
    for (what, sheets) in &rows {
        compare_tables(what, sheets);
    }
}
