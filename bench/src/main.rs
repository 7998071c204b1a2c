//! Time of the proved calls as a ratio to plain Rust and to the reference implementation, all in one run on the same inputs.

use bench::plain;
use bench::timing::{several, times};
use reference::generate::{digraph, edit_line, edits, grown, likely_edit, mixed_ends, permutation, renumbered, sheet_text, sheets, Random};
use reference::{Edit, Sheet};
use std::hint::black_box;

/// The times of the three sides, round by round in turn, as a line of the table.
fn compare<Input, P, Q, R>(
    what: &str,
    inputs: &[Input],
    mut proved: impl FnMut(&Input) -> P,
    mut plain: impl FnMut(&Input) -> Q,
    mut reference: impl FnMut(&Input) -> R,
) {
    let calls: [&mut dyn FnMut(&Input); 3] = [
        &mut |input| drop(black_box(proved(input))),
        &mut |input| drop(black_box(plain(input))),
        &mut |input| drop(black_box(reference(input))),
    ];
    let [ours, plain, reference] = times(150, inputs, calls);
    println!("| {what} | {ours:.0} ns | {plain:.0} ns | {:.2} | {:.2} |", ours / plain, ours / reference);
}

fn compare_levels(what: &str, nodes: usize, edges: usize, inputs: &[([u16; 256], [u16; 256])]) {
    compare(
        &format!("levels, {what}"),
        inputs,
        |(from, to)| proved::levels(nodes, edges, from, to),
        |(from, to)| plain::levels(nodes, edges, from, to),
        |(from, to)| reference::levels(nodes, edges, from, to),
    );
}

fn compare_trace(what: &str, inputs: &[[u16; 512]]) {
    compare(
        &format!("trace, {what}"),
        inputs,
        |step| proved::trace(512, step),
        |step| plain::trace(512, step),
        |step| reference::trace(512, step),
    );
}

fn compare_loads(what: &str, texts: &[Vec<u8>]) {
    let fresh = Sheet::fresh();
    compare(
        &format!("load, {what}"),
        texts,
        |text| proved::load(text, &fresh),
        |text| plain::load(text, &fresh),
        |text| reference::load(text, &fresh),
    );
}

fn compare_sheets(what: &str, random: &mut Random, sheets: &[Sheet]) {
    let texts: Vec<Vec<u8>> = sheets.iter().map(|sheet| sheet_text(random, sheet)).collect();
    compare_loads(what, &texts);
    compare(&format!("is_sound, {what}"), sheets, proved::is_sound, plain::is_sound, reference::is_sound);
    let mut buffers = [0; 3].map(|_| vec![0; 16_384]);
    let [a, b, c] = &mut buffers;
    compare(
        &format!("write sheet, {what}"),
        sheets,
        |sheet| proved::write_sheet(sheet, a),
        |sheet| plain::write_sheet(sheet, b),
        |sheet| reference::write_sheet(sheet, c),
    );
    compare(
        &format!("write drawing, {what}"),
        sheets,
        |sheet| proved::write_drawing(sheet, a),
        |sheet| plain::write_drawing(sheet, b),
        |sheet| reference::write_drawing(sheet, c),
    );
}

/// Each sheet with an edit that it accepts.
fn compare_edits(what: &str, sheets: &[Sheet], mut edit: impl FnMut(&Sheet) -> Edit) {
    let mut accepted = |sheet: &Sheet| {
        let found = (0..100_000).map(|_| edit(sheet)).find(|&edit| reference::apply(sheet, edit).0.is_ok());
        (*sheet, found.expect("an edit that is accepted"))
    };
    let inputs: Vec<(Sheet, Edit)> = sheets.iter().map(&mut accepted).collect();
    compare(
        &format!("{what}, {} bars and {} wires", sheets[0].vertices, sheets[0].edges),
        &inputs,
        |(sheet, edit)| proved::edit(sheet, *edit),
        |(sheet, edit)| plain::edit(sheet, *edit),
        |(sheet, edit)| reference::apply(sheet, *edit),
    );
}

/// `plate` on each sheet with `count` edits after it, most of them accepted.
fn compare_plate(random: &mut Random, sheets: &[Sheet], count: usize) {
    let mut input_of = |sheet: &Sheet| {
        let (mut input, mut sheet) = (sheet_text(random, sheet), *sheet);
        for _ in 0..count {
            let edit = likely_edit(random, &sheet);
            input.extend(edit_line(edit));
            sheet = reference::apply(&sheet, edit).1;
        }
        input
    };
    let inputs: Vec<Vec<u8>> = sheets.iter().map(&mut input_of).collect();
    let mut buffers = [0; 2].map(|_| vec![0; proved::LONGEST_OUTPUT]);
    let [a, b] = &mut buffers;
    compare(
        &format!("plate, {} bars, {} wires and {count} edits", sheets[0].vertices, sheets[0].edges),
        &inputs,
        |input| proved::plate(input, a),
        |input| plain::plate(input, b),
        |input| reference::plate(input),
    );
}

fn main() {
    let random = &mut Random::new(1);
    println!("| call | proved | plain Rust | proved / plain | proved / reference |");
    println!("|---|---|---|---|---|");
    let full = several(|| grown(random, 128, 256));
    let room = several(|| grown(random, 127, 255));
    compare_sheets("128 bars and 256 wires", random, &full);
    let mut mixed = |sheet: &Sheet| {
        let text = sheet_text(random, sheet);
        mixed_ends(random, &text)
    };
    compare_loads("128 bars and 256 wires, both line ends", &full.iter().map(&mut mixed).collect::<Vec<_>>());
    compare_edits("put in", &room, |_| Edit::In(random.between(1, 254)));
    compare_edits("run", &room, |sheet| edits::run_in_one_face(random, sheet));
    compare_edits("take out a wire", &full, |_| Edit::Out(random.between(1, 255)));
    compare_edits("take out a bar", &full, |_| Edit::Off(random.between(2, 127)));
    compare_plate(random, &full, 0);
    compare_plate(random, &full, 100);
    let (wide, long) = (sheets::parallel(256), sheets::path(128));
    let (wide, long) = (several(|| renumbered(random, &wide)), several(|| renumbered(random, &long)));
    compare_sheets("2 bars with 256 wires", random, &wide);
    compare_sheets("a path of 128 bars", random, &long);
    compare_levels("128 nodes and 256 edges", 128, 256, &several(|| digraph(random, 128, 256, true)));
    compare_trace("512 elements", &several(|| permutation(random, 512)));
}
