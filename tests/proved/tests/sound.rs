//! Levels, orbits and soundness against the reference, on random and adversarial inputs.

use reference::generate::{damaged_record, digraph, permutation, random_sheet, sheets, Random, Records};
use reference::Sheet;

#[test]
fn levels_agree_on_random_digraphs() {
    let random = &mut Random::new(11);
    let (mut cyclic, mut acyclic) = (0, 0);
    for round in 0..30_000 {
        let nodes = random.between(2, if round % 3 == 0 { 256 } else { 12 });
        let edges = random.below(257.min(3 * nodes) + 1).min(256);
        let straight = random.one_in(2);
        let (from, to) = digraph(random, nodes, edges, straight);
        let expected = reference::levels(nodes, edges, &from, &to);
        if expected.is_some() { acyclic += 1 } else { cyclic += 1 }
        assert_eq!(proved::levels(nodes, edges, &from, &to), expected, "{nodes} nodes, {edges} edges");
    }
    assert!(cyclic > 1_000 && acyclic > 1_000, "both answers occur: {cyclic}, {acyclic}");
}

#[test]
fn levels_of_a_path_numbered_backwards() {
    let (mut from, mut to) = ([0; 256], [0; 256]);
    for k in 0..255u16 {
        (from[k as usize], to[k as usize]) = (255 - k, 254 - k);
    }
    let level = proved::levels(256, 255, &from, &to).expect("a path has no circle");
    for v in 0..256 {
        assert_eq!(level[v], 255 - v as u16);
    }
    (from[255], to[255]) = (0, 255);
    assert_eq!(proved::levels(256, 256, &from, &to), None, "closed, it is a circle");
}

#[test]
fn orbits_agree_on_random_permutations() {
    let random = &mut Random::new(12);
    for round in 0..30_000 {
        let size = random.below(if round % 4 == 0 { 513 } else { 20 });
        let step = permutation(random, size);
        assert_eq!(proved::trace(size, &step), reference::trace(size, &step), "{size} elements");
    }
}

/// Compares one record; tells whether it is sound.
fn same_soundness(sheet: &Sheet, what: &str) -> bool {
    let expected = reference::is_sound(sheet);
    assert_eq!(proved::is_sound(sheet), expected, "{what}: {} bars, {} wires", sheet.vertices, sheet.edges);
    expected
}

#[test]
fn soundness_agrees_on_a_hundred_thousand_records() {
    let random = &mut Random::new(13);
    let (mut sound, mut unsound) = (0, 0);
    let mut count = |is_sound: bool| if is_sound { sound += 1 } else { unsound += 1 };
    for sheet in Records::new(15).take(4_000) {
        count(same_soundness(&sheet, "a record"));
    }
    for _ in 0..12_000 {
        let sheet = random_sheet(random);
        count(same_soundness(&sheet, "a grown sheet"));
        for _ in 0..7 {
            count(same_soundness(&damaged_record(random, &sheet), "a damaged sheet"));
        }
    }
    assert_eq!(sound + unsound, 100_000);
    assert!(sound > 10_000 && unsound > 10_000, "both answers occur: {sound}, {unsound}");
}

#[test]
fn soundness_of_the_extremes() {
    let random = &mut Random::new(14);
    for sheet in [sheets::parallel(256), sheets::path(128), sheets::backward(&sheets::path(128)), Sheet::fresh()] {
        assert!(proved::is_sound(&sheet), "{} bars, {} wires", sheet.vertices, sheet.edges);
    }
    for sheet in sheets::extreme_sheets(random) {
        assert_eq!(proved::is_sound(&sheet), reference::is_sound(&sheet));
    }
}
