//! The second load against every choice of directions on small nets, and by its promises on large
//! ones: it is refused 19 exactly where no choice makes the rules on circles and on bars 0 and 1 hold,
//! and the sheet that it returns is one of the good choices, with the links and rings of the text.

mod common;

use common::net::Net;
use common::{geometry, lines, links_answer, sheet_words, slow};
use reference::generate::links::{beside, extreme_links, joined, one_link};
use reference::generate::sheets::{parallel, path};
use reference::generate::{
    directed_torus, extreme_sheets, grown, link_inputs_of_every_size, link_text, mixed_ends,
    random_sheet, refused_links, renumbered, sheet_text, torus, LinkTexts, Random,
};
use reference::{draw, is_sound, load, load_links, permitted, Answer, Sheet};

/// How many nets there are with each answer, with more than one good choice, and with twisted rings
/// and no good choice.
#[derive(Default, Debug)]
struct Seen {
    answers: [usize; 20],
    free: usize,
    both: usize,
}

/// Compares the second load's answer to a net with every choice of directions.
fn try_every_choice(net: &Net, seen: &mut Seen) {
    let text = net.text();
    let mut present = Sheet::blank(2, 99);
    present.tails[7] = 3;
    let answer = load_links(&text, &present);
    let good: Vec<Sheet> = net.every_choice().filter(slow::bipolar).collect();
    let planar = slow::face_count(&net.sheet(0)) + net.rings.len() == net.links.len() + 2;
    let expected = if net.rings.iter().any(Vec::is_empty) {
        Err(1)
    } else if net.links[0] != (0, 1) {
        Err(5)
    } else if good.is_empty() {
        Err(19)
    } else if !planar {
        Err(8)
    } else {
        Ok(())
    };
    assert_eq!(answer.0, expected, "{net:?}");
    let accepted = answer.0.is_ok();
    if accepted {
        assert!(good.contains(&answer.1), "{:?} for {net:?}", answer.1);
        assert!(is_sound(&answer.1) && slow::sound(&answer.1));
        assert_eq!(answer.2, text.len());
    } else {
        assert_eq!((answer.1, answer.2), (present, 0));
    }
    assert!(permitted(&text, &present, &answer));
    for sheet in net.every_choice() {
        let other = (Ok(()), sheet, text.len());
        assert_eq!(permitted(&text, &present, &other), accepted && good.contains(&sheet));
    }
    seen.answers[usize::from(answer.0.err().unwrap_or(0))] += 1;
    seen.free += usize::from(good.len() > 1);
    seen.both += usize::from(expected == Err(19) && !planar);
}

/// Every pair of different bars, in both orders where `ordered`.
fn pairs(bars: usize, ordered: bool) -> Vec<(usize, usize)> {
    let all = (0..bars * bars).map(|i| (i / bars, i % bars));
    all.filter(|&(a, b)| a < b || ordered && a != b).collect()
}

/// Every list of links after link 0 from a list of pairs, with rings in any order.
fn try_every_net(random: &mut Random, bars: usize, wires: usize, ordered: bool, seen: &mut Seen) {
    let pairs = pairs(bars, ordered);
    for number in 0..pairs.len().pow(wires as u32 - 1) {
        let mut links = vec![(0, 1)];
        let mut rest = number;
        for _ in 1..wires {
            links.push(pairs[rest % pairs.len()]);
            rest /= pairs.len();
        }
        try_every_choice(&Net::new(random, bars, &links), seen);
    }
}

#[test]
fn every_net_of_few_bars() {
    let random = &mut Random::new(201);
    let mut seen = Seen::default();
    for wires in 2..=9 {
        try_every_net(random, 2, wires, false, &mut seen);
    }
    for (bars, most, ordered) in [(2, 6, true), (3, 6, false), (3, 4, true), (4, 6, false)] {
        for wires in 2..=most {
            try_every_net(random, bars, wires, ordered, &mut seen);
        }
    }
    try_every_net(random, 5, 5, false, &mut seen);
    assert!([0, 1, 8, 19].iter().all(|&number| seen.answers[number] > 300), "{seen:?}");
    assert!(seen.free >= 120 && seen.both > 3000, "{seen:?}");
}

#[test]
fn random_nets_with_any_rings() {
    let random = &mut Random::new(202);
    let mut seen = Seen::default();
    for _ in 0..6000 {
        let bars = random.between(2, 6);
        let wires = random.between(bars.max(2), 9);
        let pairs = pairs(bars, true);
        let mut links: Vec<_> = (0..wires).map(|_| random.pick(&pairs)).collect();
        if !random.one_in(8) {
            links[0] = (0, 1);
        }
        try_every_choice(&Net::new(random, bars, &links), &mut seen);
    }
    assert!([0, 1, 5, 8, 19].iter().all(|&number| seen.answers[number] > 150), "{seen:?}");
    assert!(seen.free > 30 && seen.both > 800, "{seen:?}");
}

/// Rings that mostly lie in the plane: the links of sheets, and links without a choice made of them.
#[test]
fn random_nets_in_the_plane() {
    let random = &mut Random::new(203);
    let mut seen = Seen::default();
    for _ in 0..3000 {
        let bars = random.pick(&[2, 3, 4, 5, 6, 6, 6]);
        let wires = (bars + random.below(6)).min(10);
        let grown = grown(random, bars, wires);
        let sheet = renumbered(random, &grown);
        let refusal = random.pick(&[0, 0, 5, 8, 19]);
        let other = refused_links(random, &sheet, refusal).filter(|links| links.edges <= 10);
        let links = if refusal == 0 { sheet } else { other.unwrap_or(sheet) };
        try_every_choice(&Net::of_text(&link_text(random, &links)), &mut seen);
    }
    assert!([0, 5, 8, 19].iter().all(|&number| seen.answers[number] > 150), "{seen:?}");
    assert!(seen.free > 100 && seen.both > 50, "{seen:?}");
}

/// Loads the links of a text that must be accepted, with its edit lines after it or none, and tells
/// the sheet: sound, of the text's links and rings, drawn without contact, and written as a text that
/// the first load reads back and the second refuses.
fn directed(text: &[u8]) -> Sheet {
    let (answer, sheet, taken) = load_links(text, &Sheet::blank(0, 0));
    assert_eq!(answer, Ok(()));
    assert!(slow::sound(&sheet));
    assert!(Net::of_text(&text[..taken]).plain() == Net::of_text(&written(&sheet)).plain());
    assert_eq!(geometry::check(&sheet, &draw(&sheet).1), Ok(()));
    let written = written(&sheet);
    assert_eq!(load(&written, &Sheet::blank(0, 0)), (Ok(()), sheet, written.len()));
    assert_eq!(load_links(&written, &Sheet::fresh()), (Err(1), Sheet::fresh(), 0));
    assert!(permitted(text, &Sheet::fresh(), &(answer, sheet, taken)));
    sheet
}

fn written(sheet: &Sheet) -> Vec<u8> {
    lines(&sheet_words(sheet))
}

#[test]
fn links_of_sheets_of_every_size() {
    let random = &mut Random::new(204);
    let mut sheets = extreme_sheets(random);
    sheets.extend((0..1000).map(|_| random_sheet(random)));
    let mut others = 0;
    for sheet in &sheets {
        let text = link_text(random, sheet);
        let directed = directed(&mixed_ends(random, &text));
        assert_eq!((directed.vertices, directed.edges), (sheet.vertices, sheet.edges));
        assert!(Net::of_text(&text).plain() == Net::of_text(&sheet_text(random, sheet)).plain());
        // The sheet's own directions would be as good.
        assert!(permitted(&text, &Sheet::fresh(), &(Ok(()), *sheet, text.len())));
        others += usize::from(directed != *sheet);
    }
    assert!(others > 300, "{others}");
    let sizes = link_inputs_of_every_size(random);
    assert_eq!(sizes.len(), 127 + 255);
    for input in sizes {
        directed(&input);
    }
}

/// Where all bars but 0 and 1 lie on one path, or there are no others, the sheet is given back.
#[test]
fn paths_and_parallel_links_have_one_choice() {
    let random = &mut Random::new(205);
    for count in 2..=128 {
        let path = path(count);
        let path = renumbered(random, &path);
        assert_eq!(directed(&link_text(random, &path)), path);
    }
    for count in 2..=256 {
        assert_eq!(directed(&link_text(random, &parallel(count))), parallel(count));
    }
}

fn answer_to(random: &mut Random, links: &Sheet) -> Answer {
    let text = link_text(random, links);
    links_answer(&mixed_ends(random, &text))
}

#[test]
fn large_links_without_a_choice() {
    let random = &mut Random::new(206);
    let mut tried = 0;
    for _ in 0..600 {
        let sheet = random_sheet(random);
        let (vertices, edges) = (random.between(2, 30), random.between(30, 60));
        let part = grown(random, vertices, edges);
        let other = random.pick(&[one_link(), part]);
        if sheet.vertices + other.vertices > 128 || sheet.edges + other.edges > 255 {
            continue;
        }
        tried += 1;
        let joined = joined(random, &sheet, &other);
        assert_eq!(slow::face_count(&joined) + joined.vertices, joined.edges + 2);
        let renumbered = renumbered(random, &joined);
        for links in [joined, renumbered, beside(&sheet, &other)] {
            assert_eq!(answer_to(random, &links), Err(19));
        }
        // One more link, from a bar of one part to a bar of the other and not at their joint, and there
        // is a choice, though the rings may be twisted then.
        let net = bridged(random, &joined, &sheet);
        let answer = links_answer(&net.text());
        assert!([Ok(()), Err(8)].contains(&answer), "{answer:?} for {net:?}");
    }
    assert!(tried > 300, "{tried}");
}

/// Links of which the first part are those of a sheet, joined with other bars at one bar; and one link
/// more past the joint.
fn bridged(random: &mut Random, joined: &Sheet, sheet: &Sheet) -> Net {
    let at = |k: &usize, v: usize| joined.dart_at(*k, v).is_some();
    let is_joint = |v: &usize| (sheet.edges..joined.edges).any(|k| at(&k, *v));
    let first_part: Vec<usize> = (0..sheet.vertices).filter(|v| !is_joint(v)).collect();
    let a = random.pick(&first_part);
    let b = random.between(sheet.vertices, joined.vertices - 1);
    let mut net = Net::of_text(&sheet_text(random, joined));
    net.links.push((b, a));
    net.rings[a].push(joined.edges);
    net.rings[b].push(joined.edges);
    net
}

#[test]
fn links_on_a_torus_and_at_the_limits() {
    let random = &mut Random::new(207);
    // Wire 0 of the grid joins bars 0 and 1; both directions of it are one net, and only the count
    // of faces is wrong with it.
    for record in [torus(), directed_torus()] {
        let turned = (record.tails[0], record.heads[0]) != (0, 1);
        let links = if turned { record.turned(|k| k == 0) } else { record };
        assert_eq!(answer_to(random, &links), Err(8));
    }
    let mut seen = [0; 20];
    for links in extreme_links(random) {
        seen[usize::from(answer_to(random, &links).err().unwrap_or(0))] += 1;
        let full = (links.vertices, links.edges) == (128, 256);
        seen[17] += usize::from(full && answer_to(random, &links) == Err(19));
    }
    assert!(seen[0] >= 60 && seen[19] >= 28 && seen[17] >= 8, "{seen:?}");
}

#[test]
fn texts_of_the_generator() {
    let mut seen = [0; 20];
    let present = Sheet::fresh();
    for text in LinkTexts::new(208).take(6000) {
        let answer = load_links(&text, &present);
        assert!(permitted(&text, &present, &answer));
        assert!(!permitted(&text, &present, &(answer.0, answer.1, answer.2 + 1)));
        let other = match answer.0 {
            Ok(()) => Err(19),
            Err(number) => Err(number % 19 + 1),
        };
        assert!(!permitted(&text, &present, &(other, answer.1, answer.2)));
        seen[usize::from(answer.0.err().unwrap_or(0))] += 1;
    }
    assert!(seen[0] > 2000, "{seen:?}");
    assert!([1, 5, 8, 19].iter().all(|&number| seen[number] > 100), "{seen:?}");
    assert!([2, 3, 4].iter().all(|&number| seen[number] > 5), "{seen:?}");
    assert_eq!((seen[6], seen[7]), (0, 0));
}
