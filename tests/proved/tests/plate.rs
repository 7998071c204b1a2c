//! `plate` as a function from bytes to bytes against the reference; the whole buffer is compared, what lies past the
//! output included. After links the reference goes on from the sheet of the proved load of links, so that all of an output
//! fits one choice of directions.

mod common;

use proved::LONGEST_OUTPUT;
use reference::generate::{
    inputs_of_every_size, link_inputs_of_every_size, special_inputs, special_link_inputs, variation, Inputs, LinkInputs, Random,
};

/// What `plate` is to print for an input.
fn expected_of(input: &[u8]) -> Vec<u8> {
    reference::plate_by(input, common::load_links)
}

/// A buffer of other bytes, lent again and again.
struct Lent {
    before: Vec<u8>,
    buffer: Vec<u8>,
}

impl Lent {
    fn new() -> Lent {
        let before: Vec<u8> = (0..LONGEST_OUTPUT + 100).map(|i| (i * 13 + 7) as u8).collect();
        Lent { buffer: before.clone(), before }
    }

    /// Compares one call with a buffer of `room` bytes, which is long enough; tells the output.
    fn same_output(&mut self, input: &[u8], room: usize) -> Vec<u8> {
        let expected = expected_of(input);
        let answer = proved::plate(input, &mut self.buffer[..room]);
        assert_eq!(answer, (0, expected.len()), "{:?}", String::from_utf8_lossy(input));
        let (front, rest) = self.buffer.split_at_mut(expected.len());
        assert!(front == expected, "the output for {:?}", String::from_utf8_lossy(input));
        assert!(rest == &self.before[expected.len()..], "the rest of the buffer for {:?}", String::from_utf8_lossy(input));
        front.copy_from_slice(&self.before[..expected.len()]);
        expected
    }

    /// A buffer of `room` bytes, which is too short, is refused and untouched.
    fn refuses(&mut self, input: &[u8], room: usize) {
        assert_eq!(proved::plate(input, &mut self.buffer[..room]), (17, 0), "room {room}");
        assert!(self.buffer == self.before, "untouched with room {room}");
    }
}

/// Counts of outputs by the number of their first refusal, 0 for none, and of the refusals in them.
#[derive(Default)]
struct Seen {
    first: [usize; 20],
    all: [usize; 20],
}

impl Seen {
    fn count(&mut self, output: &[u8]) {
        let text = std::str::from_utf8(output).expect("plate prints text");
        let numbers: Vec<usize> =
            text.lines().filter_map(|line| line.strip_prefix("refused=")).map(|number| number.parse().expect("a number")).collect();
        self.first[numbers.first().copied().unwrap_or(0)] += 1;
        for number in numbers {
            self.all[number] += 1;
        }
    }
}

#[test]
fn plate_agrees_on_a_hundred_thousand_inputs() {
    let random = &mut Random::new(51);
    let (mut lent, mut seen) = (Lent::new(), Seen::default());
    for input in Inputs::new(52).take(4_000) {
        seen.count(&lent.same_output(&input, LONGEST_OUTPUT));
        for _ in 0..24 {
            seen.count(&lent.same_output(&variation(random, &input), LONGEST_OUTPUT));
        }
    }
    assert_eq!(seen.first.iter().sum::<usize>(), 100_000);
    for number in [0, 1, 2, 3, 4, 5, 6, 7, 8, 18] {
        assert!(seen.first[number] > 100, "first refusal {number}: {:?}", seen.first);
    }
    for number in 10..=16 {
        assert!(seen.all[number] > 1_000, "refusal {number}: {:?}", seen.all);
    }
}

#[test]
fn plate_agrees_on_thirty_thousand_inputs_of_links() {
    let random = &mut Random::new(56);
    let (mut lent, mut seen) = (Lent::new(), Seen::default());
    for input in LinkInputs::new(57).take(3_000) {
        seen.count(&lent.same_output(&input, LONGEST_OUTPUT));
        for _ in 0..9 {
            seen.count(&lent.same_output(&variation(random, &input), LONGEST_OUTPUT));
        }
    }
    assert_eq!(seen.first.iter().sum::<usize>(), 30_000);
    for number in [0, 1, 2, 3, 4, 5, 8, 18, 19] {
        assert!(seen.first[number] > 60, "first refusal {number}: {:?}", seen.first);
    }
    for number in 10..=16 {
        assert!(seen.all[number] > 1_000, "refusal {number}: {:?}", seen.all);
    }
}

#[test]
fn plate_agrees_on_special_inputs_and_every_size() {
    let mut lent = Lent::new();
    let mut longest = 0;
    for input in special_inputs() {
        longest = longest.max(lent.same_output(&input, LONGEST_OUTPUT).len());
    }
    assert_eq!(longest, 163_349, "16,329 blank lines after the fresh sheet");
    let inputs = inputs_of_every_size(&mut Random::new(53));
    assert_eq!(inputs.len(), 127 + 255);
    for input in inputs {
        assert!(lent.same_output(&input, LONGEST_OUTPUT + 100).len() > 50);
    }
}

#[test]
fn plate_agrees_on_special_inputs_of_links_and_every_size() {
    let (mut lent, mut seen) = (Lent::new(), Seen::default());
    for input in special_link_inputs() {
        seen.count(&lent.same_output(&input, LONGEST_OUTPUT));
    }
    for number in [0, 1, 2, 8, 18, 19] {
        assert!(seen.first[number] > 1, "first refusal {number}: {:?}", seen.first);
    }
    let inputs = link_inputs_of_every_size(&mut Random::new(58));
    assert_eq!(inputs.len(), 127 + 255);
    for input in inputs {
        assert!(lent.same_output(&input, LONGEST_OUTPUT + 100).len() > 50);
    }
}

#[test]
fn plate_refuses_buffers_shorter_than_the_longest_output() {
    let random = &mut Random::new(54);
    let mut lent = Lent::new();
    let links = LinkInputs::new(59).take(300).chain(special_link_inputs());
    for input in Inputs::new(55).take(300).chain(special_inputs()).chain(links) {
        let length = expected_of(&input).len();
        for room in [0, 1, length - 1, random.below(length)] {
            lent.refuses(&input, room);
        }
        lent.refuses(&input, LONGEST_OUTPUT - 1);
    }
}
