//! Write drawing in plain Rust that traces inside the column loop: where the columns are found, the left and the right face of
//! each edge is traced anew, to tell by its lowest dart which face it is. All else is plain Rust's, which has traced once for
//! soundness.

use bench::plain::{next, write_drawing_by};
use reference::Sheet;

pub fn write_drawing(s: &Sheet, buffer: &mut [u8]) -> (u16, usize) {
    write_drawing_by(s, buffer, |faces, walk| faces.of[lowest(s, walk)])
}

/// The lowest dart of the walk's face.
fn lowest(s: &Sheet, walk: usize) -> usize {
    let (mut lowest, mut dart) = (walk, next(s, walk ^ 1));
    while dart != walk {
        lowest = lowest.min(dart);
        dart = next(s, dart ^ 1);
    }
    lowest
}

#[cfg(test)]
mod tests {
    use super::*;
    use bench::plain;
    use reference::generate::{extreme_sheets, random_sheet, Random, Records};

    /// Compares the answer and the whole buffer with plain Rust and the reference; tells whether it is a drawing.
    fn same_drawing(s: &Sheet, room: usize) -> bool {
        let mut buffers = [0; 3].map(|_| vec![b'#'; room]);
        let [anew, once, reference] = &mut buffers;
        let (answer, count) = reference::write_drawing(s, reference);
        let expected = (answer.map_or_else(u16::from, |()| 0), count);
        assert_eq!(write_drawing(s, anew), expected);
        assert_eq!(plain::write_drawing(s, once), expected);
        assert!(anew == reference && once == reference);
        answer.is_ok()
    }

    #[test]
    fn the_same_text_as_by_one_trace() {
        let random = &mut Random::new(91);
        let mut sheets = extreme_sheets(random);
        sheets.extend((0..1_500).map(|_| random_sheet(random)));
        for s in &sheets {
            assert!(same_drawing(s, 8192));
            same_drawing(s, random.below(8192));
        }
        let drawn = Records::new(92).take(3_000).filter(|s| same_drawing(s, 8192)).count();
        assert!(drawn > 300 && drawn < 1_500, "{drawn}");
    }

    #[test]
    fn the_lowest_dart_of_each_face() {
        let random = &mut Random::new(93);
        for _ in 0..300 {
            let s = random_sheet(random);
            let table = reference::trace_faces(&s).1;
            for walk in 0..2 * s.edges {
                assert_eq!(table.iter().position(|&face| face == table[walk]), Some(lowest(&s, walk)));
            }
        }
    }
}
