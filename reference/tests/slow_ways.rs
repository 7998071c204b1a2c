//! The reference implementation against second, slow ways to the same answers.

mod common;

use common::model::Model;
use common::{artwork, lines, slow, FRESH_DRAWN};
use reference::generate::drawings::{other_bytes, small_drawings};
use reference::generate::{
    any_drawing, any_edit, damaged, damaged_record, digraph, directed_torus, grown, likely_edit,
    permutation, random_sheet, torus, Random, Records,
};
use reference::write::drawing_text;
use reference::{
    apply, check_drawing, draw, is_sound, levels, mask_in_halves, trace, Drawing, Sheet,
};

#[test]
fn soundness_of_records() {
    let mut sound = 0;
    let mut unsound = 0;
    for record in Records::new(6).take(6000) {
        let expected = slow::sound(&record);
        assert_eq!(is_sound(&record), expected, "{record:?}");
        sound += usize::from(expected);
        unsound += usize::from(!expected);
    }
    assert!(sound > 800 && unsound > 3000, "{sound} {unsound}");
}

#[test]
fn calls_on_unsound_records() {
    let random = &mut Random::new(7);
    for record in Records::new(8).take(3000).filter(|record| !slow::sound(record)) {
        let edit = any_edit(random, &record);
        assert_eq!(apply(&record, edit), (Err(9), record));
        assert_eq!(draw(&record), (Err(9), Drawing::zeros()));
    }
}

#[test]
fn the_torus() {
    for record in [torus(), directed_torus()] {
        assert_eq!((record.vertices, record.edges), (16, 32));
        assert_eq!(slow::face_count(&record), 16);
        assert_eq!(reference::trace::faces(&record).0, 16);
        assert!(!is_sound(&record) && !slow::sound(&record));
    }
    // The first has circles; with the second only the count of faces is wrong.
    let answers = [torus(), directed_torus()].map(|record| {
        common::load_answer(&reference::generate::sheet_text(&mut Random::new(1), &record))
    });
    assert_eq!(answers, [Err(6), Err(8)]);
}

#[test]
fn drawings() {
    let random = &mut Random::new(9);
    for _ in 0..1200 {
        let sheet = random_sheet(random);
        assert_eq!(draw(&sheet), (Ok(()), slow::drawing(&sheet)));
    }
}

/// The segments by sets of heights, faces named by their lowest ends.
#[test]
fn masks() {
    let random = &mut Random::new(16);
    for _ in 0..1200 {
        let sheet = random_sheet(random);
        let (answer, mask) = mask_in_halves(&sheet);
        assert_eq!((answer, mask.used()), (Ok(()), &slow::mask(&sheet)[..]), "{sheet:?}");
    }
}

#[test]
fn rows_and_columns_by_every_path() {
    let random = &mut Random::new(10);
    for _ in 0..300 {
        let vertices = random.between(2, 8);
        let edges = vertices + random.below(7);
        let sheet = grown(random, vertices, edges);
        let drawing = draw(&sheet).1;
        let (wires, faces) = (slow::wire_steps(&sheet), slow::face_steps(&sheet));
        for v in 0..vertices {
            let row = slow::longest_by_enumeration(0, v, &wires);
            assert_eq!(row, Some(drawing.vertices[v].row as usize));
        }
        for k in 0..edges {
            let start = slow::face_of(&sheet, 1);
            let column = slow::longest_by_enumeration(start, slow::face_of(&sheet, 2 * k), &faces);
            assert_eq!(column, Some(drawing.edges[k].column as usize));
        }
    }
}

/// Edits with lists of wire numbers for rings: the answers and the sheets, refused or accepted.
#[test]
fn edits() {
    let random = &mut Random::new(11);
    let mut counts = [0; 17];
    for _ in 0..500 {
        let mut sheet = random_sheet(random);
        for _ in 0..40 {
            let edit = if random.one_in(2) {
                likely_edit(random, &sheet)
            } else {
                any_edit(random, &sheet)
            };
            let model = Model::new(&sheet);
            assert_eq!(model.sheet(), sheet);
            let expected = match model.edit(edit) {
                Ok(new) => (Ok(()), new.sheet()),
                Err(refusal) => (Err(refusal), sheet),
            };
            let (answer, new) = apply(&sheet, edit);
            assert_eq!((answer, new), expected, "{edit:?} on {sheet:?}");
            counts[answer.err().unwrap_or(0) as usize] += 1;
            sheet = new;
        }
        assert!(slow::sound(&sheet));
    }
    assert!(counts[0] > 4000, "{counts:?}");
    assert!(counts[10..].iter().all(|&count| count > 50), "{counts:?}");
}

#[test]
fn levels_of_graphs() {
    let random = &mut Random::new(12);
    let mut circles = 0;
    for _ in 0..2000 {
        let nodes = random.between(2, 256);
        let edges = random.below(257);
        let acyclic = random.one_in(2);
        let (from, to) = digraph(random, nodes, edges, acyclic);
        match levels(nodes, edges, &from, &to) {
            Some(level) => assert_levels(nodes, edges, &from, &to, &level),
            None => {
                assert!(!acyclic);
                assert!(has_circle(edges, &from, &to));
                circles += 1;
            }
        }
    }
    assert!(circles > 300, "{circles}");
}

/// No edge falls short, and every node above level 0 has an edge from the level below it: this
/// fixes the levels, and shuts out a circle.
fn assert_levels(
    nodes: usize,
    edges: usize,
    from: &[u16; 256],
    to: &[u16; 256],
    level: &[u16; 256],
) {
    let of = |node: u16| level[node as usize];
    assert!((0..edges).all(|e| of(to[e]) > of(from[e])));
    for node in 0..256 {
        let reached = (0..edges).any(|e| to[e] as usize == node && of(from[e]) + 1 == level[node]);
        assert_eq!(level[node] > 0, reached && node < nodes);
    }
}

/// Edges whose start is the end of no other are taken away until none is left or none goes.
fn has_circle(edges: usize, from: &[u16; 256], to: &[u16; 256]) -> bool {
    let mut left: Vec<usize> = (0..edges).collect();
    loop {
        let kept = |&e: &usize| left.iter().any(|&other| to[other] == from[e]);
        let kept: Vec<usize> = left.iter().copied().filter(kept).collect();
        if kept.len() == left.len() {
            return !left.is_empty();
        }
        left = kept;
    }
}

#[test]
fn orbits_of_permutations() {
    let random = &mut Random::new(13);
    for round in 0..600 {
        let count = if round < 3 { 512 * round / 2 } else { random.below(513) };
        let step = permutation(random, count);
        let (orbits, numbers) = trace(count, &step);
        let lowest = |start: usize| {
            let mut element = step[start] as usize;
            let mut lowest = start;
            while element != start {
                lowest = lowest.min(element);
                element = step[element] as usize;
            }
            lowest
        };
        let mut order: Vec<usize> = (0..count).map(lowest).collect();
        let own = order.clone();
        order.sort();
        order.dedup();
        assert_eq!(orbits, order.len());
        for element in 0..512 {
            let number = own.get(element).and_then(|low| order.binary_search(low).ok());
            assert_eq!(numbers[element] as usize, number.unwrap_or(0));
        }
    }
}

#[test]
fn faces_of_random_sheets() {
    let random = &mut Random::new(14);
    for _ in 0..300 {
        let sheet: Sheet = random_sheet(random);
        let faces = slow::face_count(&sheet);
        assert_eq!(reference::trace::faces(&sheet).0, faces);
        assert_eq!(sheet.vertices + faces, sheet.edges + 2);
    }
}

/// Compares the check of a drawing with the slow way, and counts its answer, 0 for acceptance.
fn check_both_ways(sheet: &Sheet, text: &[u8], counts: &mut [usize; 23]) {
    let answer = check_drawing(sheet, text);
    let shown = String::from_utf8_lossy(text);
    assert_eq!(answer, artwork::answer(sheet, text), "{shown:?} of {sheet:?}");
    counts[answer.err().unwrap_or(0) as usize] += 1;
}

/// Contact at every point and half point; the layout by the text that is written for the numbers.
#[test]
fn drawings_from_others() {
    let random = &mut Random::new(15);
    let mut counts = [0; 23];
    for _ in 0..3000 {
        let vertices = random.between(2, 8);
        let edges = random.between(vertices, 12);
        let sheet = grown(random, vertices, edges);
        for _ in 0..6 {
            let text = any_drawing(random, &sheet);
            check_both_ways(&sheet, &text, &mut counts);
            check_both_ways(&sheet, &damaged(random, &text), &mut counts);
        }
        let record = damaged_record(random, &sheet);
        check_both_ways(&record, &any_drawing(random, &sheet), &mut counts);
    }
    let [accepted, unsound] = [counts[0], counts[9]];
    assert!(accepted > 5000 && unsound > 1500, "{counts:?}");
    assert!(counts[20] > 5000 && counts[21] > 3000 && counts[22] > 1000, "{counts:?}");
}

/// Every byte put in at every place of the drawing of the fresh sheet, and in place of every byte.
#[test]
fn drawings_with_another_byte() {
    let text = lines(FRESH_DRAWN);
    let mut counts = [0; 23];
    for new in other_bytes(&text, 0..=u8::MAX) {
        check_both_ways(&Sheet::fresh(), &new, &mut counts);
    }
    // The byte that is there; 3 to 9 for one of the two numbers declared, 12 to 92, and 20 to 29.
    assert_eq!(counts[0], text.len() + 2 * (7 + 9 + 10));
    // 0 for 1 or 1 for 0: the three numbers of a bar, the column of a wire.
    assert_eq!(counts[21], 2 * (3 + 1));
    assert_eq!(counts[22], 0);
}

/// Every drawing of the fresh sheet within three rows and three columns.
#[test]
fn every_small_drawing_of_the_fresh_sheet() {
    let mut counts = [0; 23];
    for drawing in small_drawings() {
        let text = drawing_text(&Sheet::fresh(), &drawing);
        check_both_ways(&Sheet::fresh(), &text, &mut counts);
    }
    // Bar 0 lies below bar 1, in 3 ways. Two columns for the wires, in either order: 0 and 1, and 1 and 2,
    // are within two bars from column 0 to 2 or as long as they are, so in 2 times 2 ways; 0 and 2 in one.
    assert_eq!(counts[0], 3 * 2 * (4 + 4 + 1));
    assert_eq!(counts.iter().sum::<usize>(), 3usize.pow(12));
}
