//! The table of faces (C-15).

use crate::sheet::{Answer, Sheet, MAX_DARTS};
use crate::sound::is_sound;
use crate::trace::walk_steps;

/// "trace all faces once before the columns are worked out [...] into a table from which every column
/// is then found. It holds for each end the number of the face whose walk leaves its bar by that
/// end": entry 2k is the left face of wire k, entry 2k + 1 its right face. "All other calls on a sheet
/// begin with 9: sheet not sound." Then the table is 512 zeros.
pub fn trace_faces(sheet: &Sheet) -> (Answer, [u16; MAX_DARTS]) {
    if !is_sound(sheet) {
        return (Err(9), [0; MAX_DARTS]);
    }
    let darts = 2 * sheet.edges;
    (Ok(()), numbered(darts, &lowest_in_ring(darts, &walk_steps(sheet))))
}

/// "A trace stops at the walk it started from; that ring is a face." For each number below `count` the
/// lowest one of its ring, with no trace: each looks ahead in its ring for the lowest, in every round
/// twice as far as in the one before, until it has looked as far as a ring can be long. `step` must be
/// a permutation of the numbers below `count`; entries from `count` on are 0.
fn lowest_in_ring(count: usize, step: &[u16; MAX_DARTS]) -> [u16; MAX_DARTS] {
    let mut lowest = [0; MAX_DARTS];
    for element in 0..count {
        lowest[element] = element as u16;
    }
    // `lowest` is that of the element and the `seen` - 1 after it, `ahead` the one after those.
    let mut ahead = *step;
    let mut seen = 1;
    while seen < count {
        let (near, far) = (lowest, ahead);
        for element in 0..count {
            let middle = usize::from(far[element]);
            lowest[element] = near[element].min(near[middle]);
            ahead[element] = far[middle];
        }
        seen *= 2;
    }
    lowest
}

/// "faces are numbered from 0 in the order of their lowest such end, and entries past the last end are
/// 0": each face gets the next number at its lowest end, from where its other ends take it.
fn numbered(count: usize, lowest: &[u16; MAX_DARTS]) -> [u16; MAX_DARTS] {
    let mut table = [0; MAX_DARTS];
    let mut faces = 0;
    for dart in 0..count {
        let first = usize::from(lowest[dart]);
        if first == dart {
            table[dart] = faces;
            faces += 1;
        } else {
            table[dart] = table[first];
        }
    }
    table
}

#[cfg(test)]
mod tests {
    use super::*;
    use crate::generate::{permutation, random_sheet, Random};
    use crate::trace::{faces, trace};

    #[test]
    fn the_fresh_sheet() {
        let (answer, table) = trace_faces(&Sheet::fresh());
        assert_eq!(answer, Ok(()));
        // Left of wire 0 and right of wire 1 are one face.
        assert_eq!(table[..4], [0, 1, 1, 0]);
        assert_eq!(table[4..], [0; 508]);
    }

    #[test]
    fn a_sheet_that_is_not_sound() {
        let mut sheet = Sheet::fresh();
        sheet.nexts[511] = 1;
        assert_eq!(trace_faces(&sheet), (Err(9), [0; MAX_DARTS]));
        assert_eq!(trace_faces(&Sheet::blank(77, usize::MAX)), (Err(9), [0; MAX_DARTS]));
    }

    #[test]
    fn one_ring_and_rings_of_one() {
        let (mut falling, mut still) = ([0; MAX_DARTS], [0; MAX_DARTS]);
        for element in 0..MAX_DARTS {
            falling[element] = ((element + MAX_DARTS - 1) % MAX_DARTS) as u16;
            still[element] = element as u16;
        }
        assert_eq!(lowest_in_ring(MAX_DARTS, &falling), [0; MAX_DARTS]);
        assert_eq!(lowest_in_ring(MAX_DARTS, &still), still);
        assert_eq!(numbered(MAX_DARTS, &still), still);
        assert_eq!(lowest_in_ring(0, &still), [0; MAX_DARTS]);
    }

    #[test]
    fn as_by_traces() {
        let random = &mut Random::new(141);
        for _ in 0..300 {
            let count = random.below(MAX_DARTS + 1);
            let step = permutation(random, count);
            let table = numbered(count, &lowest_in_ring(count, &step));
            assert_eq!(table, trace(count, &step).1);
            let sheet = random_sheet(random);
            assert_eq!(trace_faces(&sheet), (Ok(()), faces(&sheet).1));
        }
    }
}
