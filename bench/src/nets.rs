//! Nets of 256 wires with faces of different lengths. A face of a sound sheet meets no bar twice, so it has at most 128 ends.

use crate::shapes;
use reference::generate::{grown, link_text, renumbered, sheets, Random};
use reference::{apply, load_links, Edit, Sheet, MAX_EDGES};

/// A random net.
pub fn random(random: &mut Random, bars: usize) -> Sheet {
    let sheet = grown(random, bars, MAX_EDGES);
    renumbered(random, &sheet)
}

/// Two bars: every face has two ends.
pub fn parallel(random: &mut Random) -> Sheet {
    renumbered(random, &sheets::parallel(MAX_EDGES))
}

/// Wire 0 and a path of 128 bars: a face of 128 ends on either side of wire 0.
pub fn path(random: &mut Random) -> Sheet {
    filled(random, &sheets::path(128))
}

/// A path of 127 bars, each joined to bar 0: one face of 128 ends, and triangles.
pub fn fan(random: &mut Random) -> Sheet {
    let links = shapes::fan(128);
    directed(random, &links)
}

/// A grid of 16 by 8 bars: one face of 44 ends, and squares.
pub fn grid(random: &mut Random) -> Sheet {
    let links = shapes::grid(16, 8);
    directed(random, &links)
}

/// A ladder of 2 by 64 bars: one face of 128 ends, and squares.
pub fn ladder(random: &mut Random) -> Sheet {
    let links = shapes::grid(2, 64);
    directed(random, &links)
}

/// The links as a sheet of 256 wires.
fn directed(random: &mut Random, links: &Sheet) -> Sheet {
    let (answer, sheet, _) = load_links(&link_text(random, links), &Sheet::fresh());
    assert_eq!(answer, Ok(()));
    filled(random, &sheet)
}

/// The sheet with wires beside random ones, up to 256, and with random numbers. Each of them adds a face of two ends, and the
/// other faces stay as long as they are.
fn filled(random: &mut Random, sheet: &Sheet) -> Sheet {
    let mut sheet = *sheet;
    while sheet.edges < MAX_EDGES {
        sheet = with_wire_beside(&sheet, random.below(sheet.edges));
    }
    renumbered(random, &sheet)
}

/// One wire more, which is the next one clockwise after wire k at its tail, and just before it at its head.
fn with_wire_beside(sheet: &Sheet, k: usize) -> Sheet {
    let (tail, head) = (usize::from(sheet.tails[k]), usize::from(sheet.heads[k]));
    let before = (0..2 * sheet.edges).find(|&dart| sheet.next(dart) == 2 * k + 1).expect("a ring");
    let (answer, new) = apply(sheet, Edit::Run(tail, k, head, before / 2));
    assert_eq!(answer, Ok(()));
    new
}

/// The number of ends of each face.
pub fn lengths(sheet: &Sheet) -> Vec<usize> {
    let (answer, table) = reference::trace_faces(sheet);
    assert_eq!(answer, Ok(()));
    let mut lengths = vec![0; sheet.edges + 2 - sheet.vertices];
    for &face in &table[..2 * sheet.edges] {
        lengths[usize::from(face)] += 1;
    }
    lengths
}

#[cfg(test)]
mod tests {
    use super::*;

    /// The lengths in falling order.
    fn falling(sheet: &Sheet) -> Vec<usize> {
        let mut lengths = lengths(sheet);
        lengths.sort_by_key(|&length| std::cmp::Reverse(length));
        lengths
    }

    #[test]
    fn each_net_has_its_counts_and_faces() {
        let random = &mut Random::new(94);
        for _ in 0..20 {
            for bars in [2, 16, 128] {
                let net = super::random(random, bars);
                assert_eq!((net.vertices, net.edges), (bars, 256));
            }
            assert_eq!(falling(&parallel(random)), [2; 256]);
            let shapes: [(Sheet, &[(usize, usize)]); 4] = [
                (path(random), &[(2, 128), (128, 2)]),
                (fan(random), &[(1, 128), (126, 3), (3, 2)]),
                (grid(random), &[(1, 44), (105, 4), (24, 2)]),
                (ladder(random), &[(1, 128), (63, 4), (66, 2)]),
            ];
            for (sheet, faces) in shapes {
                let expected = faces.iter().flat_map(|&(count, length)| vec![length; count]);
                assert_eq!((sheet.vertices, sheet.edges), (128, 256));
                assert_eq!(falling(&sheet), expected.collect::<Vec<_>>());
            }
        }
    }
}
