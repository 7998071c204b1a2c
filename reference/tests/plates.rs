//! The plates checked by hand, and the example input and output of `plate`.

mod common;

use common::{
    examples, lines, load_answer, plate_words, printed, sheet_of, FRESH, FRESH_DRAWN, P4,
};
use reference::{draw, load, plate, take_out_wire, trace, Sheet};

const P5: &str = "bars=2 wires=2 wire=0,1 wire=0,1 around=0,1 around=0,1 in=1 run=0,1,2,2";

const P5_PRINTED: &str = "rows=3 columns=3 bar=0,0,2 bar=2,0,2 bar=1,0,1 wire=2,0,2 wire=0,0,1 \
    wire=0,1,2 wire=1,0,1";

const P4_PRINTED: &str = "rows=4 columns=4 bar=0,0,3 bar=3,0,3 bar=1,0,1 bar=2,1,2 wire=3,0,3 \
    wire=0,0,1 wire=0,1,3 wire=2,0,2 wire=1,2,3 wire=1,1,2";

#[test]
fn p1_fresh() {
    let (answer, drawing) = draw(&Sheet::fresh());
    assert_eq!(answer, Ok(()));
    assert_eq!((drawing.rows, drawing.columns), (2, 2));
    assert_eq!((drawing.edges[1].column, drawing.edges[0].column), (0, 1));
    assert_eq!(plate_words(FRESH), FRESH_DRAWN);
    assert_eq!(sheet_of(FRESH), Sheet::fresh());
}

#[test]
fn p2_three_parallel_wires() {
    let three = "bars=2 wires=3 wire=0,1 wire=0,1 wire=0,1 around=0,1,2 around=0,2,1";
    let (answer, drawing) = draw(&sheet_of(three));
    assert_eq!(answer, Ok(()));
    assert_eq!([0, 1, 2].map(|k| drawing.edges[k].column), [2, 0, 1]);
}

#[test]
fn p3_three_twisted_wires() {
    let twisted = "bars=2 wires=3 wire=0,1 wire=0,1 wire=0,1 around=0,1,2 around=0,1,2";
    assert_eq!(load_answer(&lines(twisted)), Err(8));
    assert_eq!(plate_words(twisted), "refused=8");
    // Leaving by tail end 2k, arriving by 2k + 1, leaving by the next head end 2(k + 1) + 1 ...
    let mut step = [0; 512];
    for k in 0..3 {
        step[2 * k] = (2 * ((k + 1) % 3) + 1) as u16;
        step[2 * k + 1] = (2 * ((k + 1) % 3)) as u16;
    }
    assert_eq!(trace(6, &step).0, 1);
}

#[test]
fn p4_four_bars() {
    let sheet = sheet_of(P4);
    assert_eq!(common::slow::face_count(&sheet), 4);
    assert_eq!(reference::trace::faces(&sheet).0, 4);
    assert_eq!(plate_words(P4), P4_PRINTED);
}

/// "On plate P4 with `in=1`, bar 4 then goes from column 0 to 1 where it used to be the one point 0."
#[test]
fn p4_with_a_longer_bar() {
    let expected = "rows=5 columns=4 bar=0,0,3 bar=4,0,3 bar=2,0,1 bar=3,1,2 bar=1,0,1 \
        wire=3,0,4 wire=0,0,1 wire=0,2,4 wire=2,0,3 wire=1,3,4 wire=1,2,3 wire=0,1,2";
    assert_eq!(plate_words(&format!("{P4} in=1")), expected);
    // Without the bar it is P4 again, whose own bars have no room at their right.
    assert_eq!(plate_words(&format!("{P4} in=1 off=4")), P4_PRINTED);
}

#[test]
fn p5_the_example() {
    assert_eq!(plate_words(P5), P5_PRINTED);
    let mut input = lines(P5);
    assert_eq!(input.pop(), Some(b'\n'));
    assert_eq!(printed(&input), P5_PRINTED);
}

#[test]
fn p6_and_p7_take_out_a_wire() {
    let (_, fresh, taken) = load(&lines(P5), &Sheet::fresh());
    assert_eq!((fresh, taken), (Sheet::fresh(), 55));
    let three = "rows=3 columns=2 bar=0,0,1 bar=2,0,1 bar=1,0,0 wire=1,0,2 wire=0,0,1 wire=0,1,2";
    assert_eq!(plate_words(&format!("{P5} out=3")), three);
    assert_eq!(plate_words(&format!("{FRESH} in=1")), three);
    assert_eq!(plate_words(&format!("{P5} out=2")), format!("refused=15 {P5_PRINTED}"));
}

#[test]
fn p8_fresh_refuses() {
    assert_eq!(take_out_wire(&Sheet::fresh(), 1), (Err(15), Sheet::fresh()));
    assert_eq!(plate_words(&format!("{FRESH} out=1")), format!("refused=15 {FRESH_DRAWN}"));
    assert_eq!(plate_words(&format!("{FRESH} in=0")), format!("refused=12 {FRESH_DRAWN}"));
}

#[test]
fn p9_corners() {
    assert_eq!(plate_words(&format!("{P4} run=3,5,2,2")), format!("refused=14 {P4_PRINTED}"));
    assert_eq!(plate_words(&format!("{P4} run=3,4,2,2")), format!("refused=13 {P4_PRINTED}"));
}

#[test]
fn counts_of_bars() {
    assert_eq!(plate_words("bars=128"), "refused=1");
    assert_eq!(plate_words("bars=129"), "refused=2");
    assert_eq!(plate_words("bars=1"), "refused=2");
    assert_eq!(plate_words("bars=02"), "refused=1");
    // `bars=128` passes: the next line is what is refused, and a whole sheet of 128 is accepted.
    assert_eq!(plate_words("bars=128 wires=257"), "refused=2");
    let full = reference::generate::sheets::path(128);
    assert_eq!(sheet_of(&common::sheet_words(&full)), full);
}

#[test]
fn examples_folder() {
    let examples = examples();
    assert_eq!(examples.len(), 20);
    for (path, input, expected) in examples {
        assert_eq!(plate(&input), expected, "{}", path.display());
    }
}
