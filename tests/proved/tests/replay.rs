//! Lists of calls as numbers, made by one call of the proved library, compared with the reference: every answer, the
//! answers that are to stay as they are, and the whole drawing record afterwards. After a load of links the reference goes
//! on from the sheet that the proved load of the same links returns by itself.

mod common;

use reference::generate::{
    any_edit, any_links, any_number, damaged, likely_edit, mixed_ends, random_sheet, refused_edit, refused_sheet, sheet_text, LinkTexts, Random,
};
use reference::{Edit, Sheet};

/// A call: its kind (0 in, 1 run, 2 out, 3 off, 4 load, 6 load of links; any other is refused 10) and four numbers.
type Call = [usize; 5];

const LOAD: usize = 4;
const LOAD_LINKS: usize = 6;

/// The bytes of the text from a start up to an end, as far as it has them.
fn part(text: &[u8], start: usize, end: usize) -> Vec<u8> {
    (0..text.len()).filter(|&i| start <= i && i < end).map(|i| text[i]).collect()
}

/// What the reference answers to a call: its number, the sheet returned, and the bytes taken.
fn expected_of(sheet: &Sheet, [kind, a, p, b, q]: Call, text: &[u8]) -> (usize, Sheet, usize) {
    let edit = match kind {
        0 => Edit::In(a),
        1 => Edit::Run(a, p, b, q),
        2 => Edit::Out(a),
        3 => Edit::Off(a),
        LOAD | LOAD_LINKS => {
            let load = if kind == LOAD { reference::load } else { common::load_links };
            let (answer, after, taken) = load(&part(text, a, p), sheet);
            return (answer.map_or_else(usize::from, |()| 0), after, taken);
        }
        _ => return (10, sheet.clone(), 0),
    };
    let (answer, after) = reference::apply(sheet, edit);
    (answer.map_or_else(usize::from, |()| 0), after, 0)
}

/// The text of a sheet, good, or such as load refuses after the last line.
fn any_sheet(random: &mut Random, mut sheet: Sheet) -> Vec<u8> {
    if random.one_in(6) {
        let refusal = random.between(5, 8) as u8;
        sheet = refused_sheet(random, &sheet, refusal).unwrap_or(sheet);
    }
    let text = sheet_text(random, &sheet);
    mixed_ends(random, &text)
}

/// A part of the text: the kind of the load that it is for, where it begins, and where it ends.
type Piece = [usize; 3];

/// The text of some sheets and some links, good, damaged, or such as their load refuses after the last line, and these pieces.
fn texts(random: &mut Random) -> (Vec<u8>, Vec<Piece>) {
    let (mut text, mut pieces) = (Vec::new(), Vec::new());
    for _ in 0..random.between(1, 8) {
        let sheet = random_sheet(random);
        let kind = random.pick(&[LOAD, LOAD_LINKS]);
        let piece = if kind == LOAD { any_sheet(random, sheet) } else { any_links(random, &sheet) };
        let piece = match random.below(12) {
            0 => random.pick(&[b"bars=129\n", b"bars=001\n"]).to_vec(),
            1..=4 => damaged(random, &piece),
            _ => piece,
        };
        pieces.push([kind, text.len(), text.len() + piece.len()]);
        text.extend(piece);
    }
    (text, pieces)
}

/// A load of one of the pieces, mostly of its own kind, or of a part that begins or ends anywhere, also past the text or before
/// its start.
fn any_load(random: &mut Random, length: usize, pieces: &[Piece]) -> Call {
    let [kind, start, end] = random.pick(pieces);
    let kind = if random.one_in(8) { random.pick(&[LOAD, LOAD_LINKS]) } else { kind };
    let (start, end) = match random.below(12) {
        0 => (start, any_number(random, length)),
        1 => (any_number(random, length), end),
        2 => (start, start),
        3 => (any_number(random, length), any_number(random, length)),
        4..=5 => (start, random.pick(&[length + 1, usize::MAX])),
        6 => (random.below(length + 1), random.below(length + 1)),
        _ => (start, end),
    };
    [kind, start, end, any_number(random, 9), any_number(random, 9)]
}

/// Five numbers of a kind that no call has.
fn no_call(random: &mut Random) -> Call {
    const KINDS: [usize; 10] = [5, 7, 255, 256, 65_536, 65_540, 65_542, 1 << 32, (1 << 63) + 2, usize::MAX];
    let mut number = || any_number(random, 9);
    let numbers = [number(), number(), number(), number()];
    let [a, p, b, q] = numbers;
    [random.pick(&KINDS), a, p, b, q]
}

/// An edit, likely to be accepted, likely to be refused, or any; the numbers that it does not have are any.
fn edit_call(random: &mut Random, sheet: &Sheet) -> Call {
    let edit = match random.below(6) {
        0..=3 => likely_edit(random, sheet),
        4 => any_edit(random, sheet),
        _ => {
            let refusal = random.between(10, 16) as u8;
            refused_edit(random, sheet, refusal).unwrap_or_else(|| any_edit(random, sheet))
        }
    };
    let mut other = || any_number(random, 300);
    match edit {
        Edit::In(k) => [0, k, other(), other(), other()],
        Edit::Run(a, p, b, q) => [1, a, p, b, q],
        Edit::Out(k) => [2, k, other(), other(), other()],
        Edit::Off(v) => [3, v, other(), other(), other()],
    }
}

/// A list of calls as numbers with its text, and what the reference says of it.
struct List {
    numbers: Vec<usize>,
    text: Vec<u8>,
    answers: Vec<[usize; 2]>,
    sheet: Sheet,
}

impl List {
    /// A list of `count` calls, and up to four numbers that are no call.
    fn new(random: &mut Random, count: usize) -> List {
        let (text, pieces) = texts(random);
        let mut list = List { numbers: Vec::new(), text, answers: Vec::new(), sheet: Sheet::fresh() };
        for _ in 0..count {
            let call = if random.one_in(4) {
                any_load(random, list.text.len(), &pieces)
            } else if random.one_in(20) {
                no_call(random)
            } else {
                edit_call(random, &list.sheet)
            };
            let (number, after, taken) = expected_of(&list.sheet, call, &list.text);
            list.numbers.extend(call);
            list.answers.push([number, taken]);
            list.sheet = after;
        }
        for _ in 0..random.below(5) {
            list.numbers.push(any_number(random, 5));
        }
        list
    }

    /// Compares the list's call with `room` answers, which hold other numbers first.
    fn agrees(&self, room: usize) {
        let mut ours: Vec<usize> = (0..room).map(|i| usize::MAX - i).collect();
        let mut theirs = ours.clone();
        for (pair, answer) in theirs.chunks_exact_mut(2).zip(&self.answers) {
            pair.copy_from_slice(answer);
        }
        let drawing = proved::replay(&self.numbers, &self.text, &mut ours);
        assert_eq!(ours, theirs, "the answers of {} calls with room {room}", self.answers.len());
        let (answer, expected) = reference::draw(&self.sheet);
        assert_eq!(answer, Ok(()), "every list leaves a sheet that has its drawing");
        assert!(drawing == expected, "the drawing after {} calls", self.answers.len());
    }
}

/// How many calls of all kinds, and how many loads of each kind, have each answer; and how many loads of each kind are
/// accepted without a byte.
#[derive(Debug, Default)]
struct Seen {
    all: [usize; 20],
    loads: [usize; 20],
    links: [usize; 20],
    blank: [usize; 2],
}

impl Seen {
    fn count(&mut self, list: &List) {
        for (call, &[number, taken]) in list.numbers.chunks_exact(5).zip(&list.answers) {
            self.all[number] += 1;
            let (answers, blank) = match call[0] {
                LOAD => (&mut self.loads, &mut self.blank[0]),
                LOAD_LINKS => (&mut self.links, &mut self.blank[1]),
                _ => continue,
            };
            answers[number] += 1;
            *blank += usize::from((number, taken) == (0, 0));
        }
    }
}

#[test]
fn three_thousand_lists_of_calls_agree() {
    let random = &mut Random::new(71);
    let mut seen = Seen::default();
    for _ in 0..3_000 {
        let count = random.between(1, 40);
        let list = List::new(random, count);
        let all = 2 * count;
        list.agrees(all);
        let room = random.pick(&[0, 1, all - 1, all + 1, all + 2, all + 33]);
        list.agrees(room);
        list.agrees(random.below(all));
        seen.count(&list);
    }
    let Seen { all, loads, links, blank } = &seen;
    assert!(blank.iter().all(|&blank| blank > 1_000), "{seen:?}");
    assert!(loads[0] > blank[0] + 1_000 && links[0] > blank[1] + 1_000 && all[0] > 20_000, "{seen:?}");
    assert_eq!((all[9], links[6] + links[7]), (0, 0), "every list has sound sheets");
    assert!((1..=8).all(|number| loads[number] > 50), "each refusal of load: {seen:?}");
    assert!([1, 2, 3, 4, 5, 8, 19].iter().all(|&number| links[number] > 50), "each refusal of the load of links: {seen:?}");
    assert!((10..=16).all(|number| all[number] > 50), "each refusal of an edit: {seen:?}");
}

// The drawing that a list leaves tells the direction of each wire.
#[test]
fn a_load_of_links_in_a_list_chooses_as_by_itself() {
    let random = &mut Random::new(73);
    let (mut loaded, mut refused) = (0, 0);
    for text in LinkTexts::new(74).take(4_000) {
        let call = [LOAD_LINKS, 0, random.pick(&[text.len(), usize::MAX]), 0, 0];
        let (number, sheet, taken) = expected_of(&Sheet::fresh(), call, &text);
        let list = List { numbers: call.to_vec(), text, answers: vec![[number, taken]], sheet };
        list.agrees(2);
        loaded += usize::from(number == 0);
        refused += usize::from(number != 0);
    }
    assert!(loaded > 1_500 && refused > 1_500, "{loaded} {refused}");
}

#[test]
fn lists_of_no_call_and_of_very_many_agree() {
    let random = &mut Random::new(72);
    for room in 0..8 {
        List::new(random, 0).agrees(room);
    }
    for _ in 0..3 {
        let list = List::new(random, 5_000);
        list.agrees(10_000);
        list.agrees(9_999);
    }
}

#[test]
fn calls_of_any_numbers_agree() {
    let numbers = [0, 1, 2, 3, 4, 5, 6, 7, 255, 256, 65_536, 1 << 32, (1 << 32) + 1, usize::MAX / 2 + 1, usize::MAX];
    for kind in numbers {
        for a in numbers {
            for p in numbers {
                let call = [kind, a, p, 1, 1];
                let (number, sheet, taken) = expected_of(&Sheet::fresh(), call, b"bars=02\n");
                let list = List { numbers: call.to_vec(), text: b"bars=02\n".to_vec(), answers: vec![[number, taken]], sheet };
                list.agrees(2);
            }
        }
    }
}
