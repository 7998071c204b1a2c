//! Links to take times on, each a record of which the directions mean nothing: such as take many steps for their
//! count, or few.

use reference::generate::records::from_rings;
use reference::generate::sheets::{parallel, renumber};
use reference::generate::Random;
use reference::{apply, Edit, Sheet};

/// Bars at points, and links that are straight lines between them and do not cross.
fn drawn(points: &[(i32, i32)], links: &[(usize, usize)]) -> Sheet {
    let angle = |from: usize, to: usize| {
        let ((x, y), (to_x, to_y)) = (points[from], points[to]);
        f64::from(to_y - y).atan2(f64::from(to_x - x))
    };
    let ring = |v: usize| {
        let at = |&k: &usize| links[k].0 == v || links[k].1 == v;
        let far = |k: usize| if links[k].0 == v { links[k].1 } else { links[k].0 };
        let mut ring: Vec<usize> = (0..links.len()).filter(at).collect();
        ring.sort_by(|&k, &l| angle(v, far(l)).total_cmp(&angle(v, far(k))));
        ring
    };
    from_rings(links, &(0..points.len()).map(ring).collect::<Vec<_>>())
}

/// A grid, bar 0 in its corner, bar 1 to the right of it. Two columns make a ladder.
pub fn grid(columns: usize, rows: usize) -> Sheet {
    let points: Vec<(i32, i32)> = (0..columns * rows).map(|v| ((v % columns) as i32, (v / columns) as i32)).collect();
    let right = (0..points.len()).filter(|v| (v + 1) % columns != 0).map(|v| (v, v + 1));
    let up = (columns..points.len()).map(|v| (v - columns, v));
    drawn(&points, &right.chain(up).collect::<Vec<_>>())
}

/// Bars 0 and 1 and the others between them, each joined to both: every ear has one bar.
pub fn short_ears(bars: usize) -> Sheet {
    let points: Vec<(i32, i32)> = [(0, -1), (0, 1)].into_iter().chain((2..bars as i32).map(|x| (x, 0))).collect();
    let ears = (2..bars).flat_map(|v| [(0, v), (v, 1)]);
    drawn(&points, &std::iter::once((0, 1)).chain(ears).collect::<Vec<_>>())
}

/// A path from bar 1 through all others but bar 0, which is joined to each.
pub fn fan(bars: usize) -> Sheet {
    let points: Vec<(i32, i32)> = (0..bars as i32).map(|v| (v, i32::from(v > 0))).collect();
    let path = (1..bars - 1).map(|v| (v, v + 1));
    let spokes = (1..bars).map(|v| (0, v));
    drawn(&points, &spokes.chain(path).collect::<Vec<_>>())
}

/// Each bar joined to the next and to the one after it, in two rows.
pub fn triangles(bars: usize) -> Sheet {
    let points: Vec<(i32, i32)> = (0..bars as i32).map(|v| (v, v % 2)).collect();
    let near = (0..bars - 1).map(|v| (v, v + 1));
    let far = (0..bars - 2).map(|v| (v, v + 2));
    drawn(&points, &near.chain(far).collect::<Vec<_>>())
}

/// Links between bars 0 and 1, and a path from bar 0 through all others to bar 1: the lowest of its links is the first, and
/// after it their numbers fall, so that each pass over the links reaches one bar more.
pub fn falling_path(random: &mut Random, bars: usize, links: usize) -> Sheet {
    let mut sheet = parallel(links + 2 - bars);
    let first = sheet.edges - 1;
    while sheet.vertices < bars {
        sheet = apply(&sheet, Edit::In(sheet.edges - 1)).1;
    }
    let mut vertex_numbers: Vec<usize> = (0..bars).collect();
    let mut edge_numbers: Vec<usize> = (0..links).collect();
    random.shuffle(&mut vertex_numbers[2..]);
    edge_numbers[first + 1..].reverse();
    renumber(&sheet, &vertex_numbers, &edge_numbers)
}

#[cfg(test)]
mod tests {
    use super::*;
    use reference::generate::{link_text, renumbered};

    #[test]
    fn each_shape_has_its_counts_and_a_choice() {
        let random = &mut Random::new(8);
        let shapes = [
            (grid(16, 8), 128, 232),
            (grid(2, 64), 128, 190),
            (short_ears(128), 128, 253),
            (fan(128), 128, 253),
            (triangles(128), 128, 253),
            (falling_path(random, 128, 256), 128, 256),
            (falling_path(random, 128, 128), 128, 128),
        ];
        for (shape, bars, links) in shapes {
            assert_eq!((shape.vertices, shape.edges), (bars, links));
            for links in [shape, renumbered(random, &shape)] {
                let text = link_text(random, &links);
                assert_eq!(reference::load_links(&text, &Sheet::fresh()).0, Ok(()), "{bars} bars, {} links", links.edges);
                assert_eq!(proved::load_links(&text, &Sheet::fresh()).0, 0, "{bars} bars, {} links", links.edges);
            }
        }
    }
}
