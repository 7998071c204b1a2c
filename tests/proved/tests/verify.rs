//! The program `verify` itself, run as a process, against the outputs in examples/drawings/ and against the reference, byte
//! for byte. After links the reference goes on from the sheet of the proved load of links.

mod common;

use common::process::{examples, repository, Program};
use common::Seen;
use reference::generate::drawings::other_bytes;
use reference::generate::{
    damaged, extreme_sheets, grown, mixed_ends, random_sheet, sheet_text, truncations, verify_input, Inputs, LinkInputs, Random,
};
use reference::write::drawing_text;
use reference::{draw, Sheet};

const VERIFY: Program = Program("verify");
const PLATE: Program = Program("plate");

fn same_as_reference(input: &[u8]) -> Vec<u8> {
    let output = VERIFY.run(input);
    assert!(output == reference::verify_by(input, common::load_links), "for {:?}", String::from_utf8_lossy(input));
    output
}

/// The number in the line that the program printed, 0 for acceptance.
fn number_in(output: &[u8]) -> usize {
    let line = std::str::from_utf8(output).expect("text").strip_suffix('\n').expect("a line");
    match line.strip_prefix("refused=") {
        Some(number) => number.parse().expect("a number"),
        None => {
            assert_eq!(line, "accepted");
            0
        }
    }
}

#[test]
fn examples_give_their_outputs() {
    let examples = examples("examples/drawings", "drawing");
    assert_eq!(examples.len(), 20);
    VERIFY.gives_outputs(&examples);
}

/// What `plate` prints for a sheet is a drawing that `verify` accepts for it, also where the sheet is links. The examples of
/// `plate` end with edit lines or nothing.
#[test]
fn what_plate_prints_is_accepted() {
    let mut accepted = 0;
    for (path, input, _) in examples("examples", "sheet") {
        let (answer, _, taken) = reference::plate::load_input(&input, common::load_links);
        if answer.is_ok() && taken > 0 {
            let sheet = &input[..taken];
            let verified = VERIFY.run(&[sheet, &PLATE.run(sheet)].concat());
            assert_eq!(verified, b"accepted\n", "{}", path.display());
            accepted += 1;
        }
    }
    assert_eq!(accepted, 12);
}

#[test]
fn the_program_agrees_on_three_thousand_inputs() {
    let random = &mut Random::new(181);
    let mut seen = Seen::default();
    let extremes = extreme_sheets(random);
    for i in 0..3_000 {
        let sheet = if i % 30 == 0 { random.pick(&extremes) } else { random_sheet(random) };
        let input = verify_input(random, &sheet, common::load_links);
        seen.count(number_in(&same_as_reference(&input)));
    }
    seen.at_least(&[(0, 900), (1, 60), (18, 50), (20, 700), (21, 400), (22, 150)]);
}

/// Inputs of `plate`, damaged ones among them, have edit lines or nothing where the drawing should be.
#[test]
fn the_program_agrees_on_inputs_of_plate() {
    let mut seen = Seen::default();
    for input in Inputs::new(186).take(600).chain(LinkInputs::new(187).take(300)) {
        seen.count(number_in(&same_as_reference(&input)));
    }
    seen.at_least(&[(1, 150), (2, 3), (3, 10), (4, 20), (5, 20), (6, 10), (7, 8), (8, 15), (18, 5), (19, 15), (20, 300)]);
}

/// The fresh sheet and its drawing with every byte put in, changed and cut off, and damaged texts of other sheets.
#[test]
fn the_program_agrees_on_damaged_inputs() {
    let random = &mut Random::new(182);
    let of_sheet = |sheet: &Sheet, random: &mut Random| [sheet_text(random, sheet), drawing_text(sheet, &draw(sheet).1)].concat();
    let input = of_sheet(&Sheet::fresh(), random);
    for front in truncations(&input) {
        assert_eq!(number_in(&same_as_reference(front)) == 0, front.len() == input.len());
    }
    for new in other_bytes(&input, *b"\r\n019 \xff") {
        same_as_reference(&new);
    }
    let mut seen = Seen::default();
    for _ in 0..1_000 {
        let vertices = random.between(2, 8);
        let edges = random.between(vertices, 12);
        let input = of_sheet(&grown(random, vertices, edges), random);
        seen.count(number_in(&same_as_reference(&damaged(random, &input))));
    }
    seen.at_least(&[(0, 30), (1, 300), (20, 300), (21, 20)]);
}

/// The lines of the sheet may end in 10 or in 13 10, each as it likes; those of the drawing end in 10.
#[test]
fn line_ends() {
    let random = &mut Random::new(183);
    let (mut accepted, mut refused) = (0, 0);
    for _ in 0..300 {
        let sheet = random_sheet(random);
        let (front, drawing) = (sheet_text(random, &sheet), drawing_text(&sheet, &draw(&sheet).1));
        let mixed = mixed_ends(random, &front);
        assert_eq!(VERIFY.run(&[&mixed[..], &drawing].concat()), b"accepted\n");
        accepted += usize::from(mixed != front);
        let mixed = mixed_ends(random, &drawing);
        if mixed != drawing {
            assert_eq!(VERIFY.run(&[front, mixed].concat()), b"refused=20\n");
            refused += 1;
        }
    }
    assert!(accepted > 100 && refused > 100, "{accepted} {refused}");
}

#[test]
fn inputs_at_the_limit_and_of_no_bytes() {
    assert_eq!(same_as_reference(b""), b"refused=20\n");
    assert_eq!(same_as_reference(b"\n"), b"refused=1\n");
    let sheet = Sheet::fresh();
    let drawing = drawing_text(&sheet, &draw(&sheet).1);
    assert_eq!(same_as_reference(&drawing), b"refused=1\n");
    let input = [sheet_text(&mut Random::new(184), &sheet), drawing].concat();
    assert_eq!(same_as_reference(&input), b"accepted\n");
    for (size, expected) in [(16_383, 20), (16_384, 20), (16_385, 18), (16_386, 18), (65_536, 18), (1 << 20, 18)] {
        let long: Vec<u8> = input.iter().cycle().copied().take(size).collect();
        assert_eq!(number_in(&same_as_reference(&long)), expected, "{size}");
        let unread = if size > 16_384 { 18 } else { 1 };
        assert_eq!(number_in(&same_as_reference(&vec![b'x'; size])), unread, "{size}");
    }
}

#[test]
fn the_program_reads_input_that_comes_in_pieces() {
    let random = &mut Random::new(185);
    for _ in 0..120 {
        let sheet = random_sheet(random);
        let input = verify_input(random, &sheet, common::load_links);
        let output = VERIFY.run_in_three(random, &input);
        assert!(output == reference::verify_by(&input, common::load_links), "for {:?}", String::from_utf8_lossy(&input));
    }
}

#[test]
fn the_program_prints_nothing_where_it_cannot_read() {
    assert_eq!(VERIFY.run_on_file(&repository()), b"");
}

#[test]
fn the_program_ends_where_nobody_reads_its_output() {
    VERIFY.ends_unread(b"bars=2\n");
    VERIFY.ends_unread(&[b'\n'; 16_384]);
}
