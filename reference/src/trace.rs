//! Orbits of a permutation, and the faces of a sheet.

use crate::sheet::{Sheet, MAX_DARTS};

const UNTRACED: u16 = u16::MAX;

/// The orbits of a permutation of the numbers below `count` (at most 512): how many there are,
/// and for each number its orbit. Orbits are numbered from 0 in the order of their lowest
/// number; entries from `count` on are 0. `step` must be a permutation there.
pub fn trace(count: usize, step: &[u16; MAX_DARTS]) -> (usize, [u16; MAX_DARTS]) {
    let mut orbit = [0; MAX_DARTS];
    orbit[..count].fill(UNTRACED);
    let mut orbits = 0;
    for start in 0..count {
        if orbit[start] != UNTRACED {
            continue;
        }
        let mut element = start;
        loop {
            orbit[element] = orbits as u16;
            element = usize::from(step[element]);
            if element == start {
                break;
            }
        }
        orbits += 1;
    }
    (orbits, orbit)
}

/// "Arriving at a bar by an end, the walk leaves by the next end clockwise at that bar."
/// A walk is numbered by the end that it leaves by; it arrives by the other end of the wire.
pub fn walk_steps(sheet: &Sheet) -> [u16; MAX_DARTS] {
    let mut step = [0; MAX_DARTS];
    for dart in 0..2 * sheet.edges {
        step[dart] = sheet.nexts[dart ^ 1];
    }
    step
}

/// "A trace stops at the walk it started from; that ring is a face." The number of faces, and
/// for each walk its face: entry 2k is the left face of wire k, entry 2k + 1 its right face.
pub fn faces(sheet: &Sheet) -> (usize, [u16; MAX_DARTS]) {
    trace(2 * sheet.edges, &walk_steps(sheet))
}

#[cfg(test)]
mod tests {
    use super::*;

    #[test]
    fn orbits_by_lowest_element() {
        let mut step = [0; MAX_DARTS];
        step[..6].copy_from_slice(&[4, 1, 5, 2, 0, 3]);
        let (orbits, orbit) = trace(6, &step);
        assert_eq!(orbits, 3);
        assert_eq!(orbit[..7], [0, 1, 2, 2, 0, 2, 0]);
        assert_eq!(trace(0, &step), (0, [0; MAX_DARTS]));
    }

    #[test]
    fn faces_of_the_fresh_sheet() {
        let (count, faces) = faces(&Sheet::fresh());
        assert_eq!(count, 2);
        // Left of wire 0 and right of wire 1 are one face.
        assert_eq!(faces[..4], [0, 1, 1, 0]);
    }
}
