//! Time of the proved load of links as a ratio to the reference implementation, and to the load of the sheet that it
//! returns, written out; all in one run on the same links.

use bench::shapes;
use bench::timing::{several, times};
use reference::generate::{grown, link_text, renumbered, sheet_text, sheets, Random};
use reference::Sheet;
use std::hint::black_box;

/// A text of links, and that of the sheet which its load returns.
struct Texts {
    links: Vec<u8>,
    wires: Vec<u8>,
}

/// The load of links on a text of each record, and the load of the sheet that it returns, as a line of the table.
fn compare_links(what: &str, random: &mut Random, records: &[Sheet]) {
    let fresh = Sheet::fresh();
    let mut texts_of = |record: &Sheet| {
        let links = link_text(random, record);
        let (number, sheet, _) = proved::load_links(&links, &fresh);
        assert_eq!(number, 0, "{what}");
        Texts { links, wires: sheet_text(random, &sheet) }
    };
    let texts: Vec<Texts> = records.iter().map(&mut texts_of).collect();
    let calls: [&mut dyn FnMut(&Texts); 3] = [
        &mut |texts| _ = black_box(proved::load_links(&texts.links, &fresh)),
        &mut |texts| _ = black_box(reference::load_links(&texts.links, &fresh)),
        &mut |texts| _ = black_box(proved::load(&texts.wires, &fresh)),
    ];
    let [ours, reference, load] = times(30, &texts, calls);
    println!("| {what} | {ours:.0} ns | {reference:.0} ns | {load:.0} ns | {:.2} | {:.2} |", ours / reference, ours / load);
}

fn main() {
    let random = &mut Random::new(2);
    println!("| load of links | proved | reference | load, proved | proved / reference | proved / load |");
    println!("|---|---|---|---|---|---|");
    for (bars, links) in [(4, 6), (16, 24), (32, 64), (64, 128), (128, 128), (128, 160), (128, 192), (128, 256)] {
        let nets = several(|| {
            let net = grown(random, bars, links);
            renumbered(random, &net)
        });
        compare_links(&format!("{bars} bars and {links} links"), random, &nets);
    }
    let shapes = [
        ("2 bars with 256 links", sheets::parallel(256)),
        ("a path of 128 bars, closed by link 0", sheets::path(128)),
        ("a grid of 16 by 8 bars", shapes::grid(16, 8)),
        ("a ladder of 2 by 64 bars", shapes::grid(2, 64)),
        ("126 bars, each between bars 0 and 1", shapes::short_ears(128)),
        ("a path of 127 bars, each joined to bar 0", shapes::fan(128)),
        ("128 bars in a strip of triangles", shapes::triangles(128)),
    ];
    for (what, shape) in shapes {
        let nets = several(|| renumbered(random, &shape));
        compare_links(what, random, &nets);
    }
    for links in [128, 256] {
        let nets = several(|| shapes::falling_path(random, 128, links));
        compare_links(&format!("a path of 128 bars, numbers falling, {links} links"), random, &nets);
    }
}
