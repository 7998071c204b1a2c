//! The program `plate` itself, run as a process, against the outputs in examples/ and against the reference, byte for
//! byte. After links the reference goes on from the sheet of the proved load of links.

mod common;

use common::process::{examples, repository, Program};
use reference::generate::{
    inputs_of_every_size, link_inputs_of_every_size, mixed_ends, special_inputs, special_link_inputs, variation, Inputs, LinkInputs, Random,
};

const PLATE: Program = Program("plate");

/// What the reference prints for an input.
fn expected_of(input: &[u8]) -> Vec<u8> {
    reference::plate_by(input, common::load_links)
}

fn same_as_reference(input: &[u8]) -> Vec<u8> {
    let output = PLATE.run(input);
    assert!(output == expected_of(input), "for {:?}", String::from_utf8_lossy(input));
    output
}

#[test]
fn examples_give_their_outputs() {
    let examples = examples("examples", "sheet");
    assert_eq!(examples.len(), 20);
    PLATE.gives_outputs(&examples);
}

#[test]
fn examples_give_their_outputs_in_both_line_ends() {
    let random = &mut Random::new(66);
    for (path, input, expected) in examples("examples", "sheet") {
        let plain: Vec<u8> = input.iter().copied().filter(|&byte| byte != 13).collect();
        let ended: Vec<u8> = plain.iter().flat_map(|&byte| [13, byte].into_iter().skip(usize::from(byte != 10))).collect();
        assert!((ended.len() > plain.len() || plain.is_empty()) && !ended.windows(2).any(|pair| pair[0] != 13 && pair[1] == 10));
        assert_eq!(PLATE.run(&ended), expected, "{} with 13 10", path.display());
        for _ in 0..8 {
            let mixed = mixed_ends(random, &plain);
            assert_eq!(PLATE.run(&mixed), expected, "{} with {:?}", path.display(), String::from_utf8_lossy(&mixed));
        }
    }
}

#[test]
fn the_program_agrees_on_special_inputs_and_every_size() {
    let mut longest = 0;
    for input in special_inputs() {
        longest = longest.max(same_as_reference(&input).len());
    }
    assert_eq!(longest, 163_349, "16,329 blank lines after the fresh sheet");
    for input in inputs_of_every_size(&mut Random::new(61)) {
        assert!(same_as_reference(&input).len() > 50);
    }
}

#[test]
fn the_program_agrees_on_special_inputs_of_links_and_every_size() {
    let refused = special_link_inputs().iter().filter(|input| same_as_reference(input).starts_with(b"refused=")).count();
    assert!(refused > 200, "{refused}");
    for input in link_inputs_of_every_size(&mut Random::new(67)) {
        assert!(same_as_reference(&input).len() > 50);
    }
}

/// Runs the program on each input and on variations of it, 3,000 in all: it prints a drawing alone, a refusal of the input
/// alone, and both a drawing and refusals, each many times.
fn same_on_three_thousand(random: &mut Random, inputs: impl Iterator<Item = Vec<u8>>) {
    let (mut drawn, mut refused, mut both) = (0, 0, 0);
    for input in inputs.take(600) {
        let mut inputs: Vec<Vec<u8>> = (0..4).map(|_| variation(random, &input)).collect();
        inputs.push(input);
        for input in inputs {
            let output = same_as_reference(&input);
            let lines = output.split(|&byte| byte == b'\n').filter(|line| line.starts_with(b"refused=")).count();
            match (output.starts_with(b"rows="), lines) {
                (true, 0) => drawn += 1,
                (false, 1) if output.len() < 12 => refused += 1,
                _ => both += 1,
            }
        }
    }
    assert_eq!(drawn + refused + both, 3_000);
    assert!(drawn > 200 && refused > 500 && both > 200, "{drawn} {refused} {both}");
}

#[test]
fn the_program_agrees_on_three_thousand_inputs() {
    same_on_three_thousand(&mut Random::new(62), Inputs::new(63));
}

#[test]
fn the_program_agrees_on_three_thousand_inputs_of_links() {
    same_on_three_thousand(&mut Random::new(68), LinkInputs::new(69));
}

#[test]
fn the_program_reads_input_that_comes_in_pieces() {
    let random = &mut Random::new(64);
    for input in Inputs::new(65).take(60).chain(LinkInputs::new(70).take(60)) {
        let output = PLATE.run_in_three(random, &input);
        assert!(output == expected_of(&input), "for {:?}", String::from_utf8_lossy(&input));
    }
}

#[test]
fn the_program_prints_nothing_where_it_cannot_read() {
    assert_eq!(PLATE.run_on_file(&repository()), b"");
    assert_eq!(PLATE.run(b""), b"rows=2\ncolumns=2\nbar=0,0,1\nbar=1,0,1\nwire=1,0,1\nwire=0,0,1\n", "an input of no bytes is one that it can read");
}

#[test]
fn the_program_ends_where_nobody_reads_its_output() {
    let mut input = b"bars=2\nwires=2\nwire=0,1\nwire=0,1\naround=0,1\naround=0,1\n".to_vec();
    input.resize(16_384, b'\n');
    PLATE.ends_unread(&input);
}
