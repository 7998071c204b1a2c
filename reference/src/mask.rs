//! The insulation mask (C-17).

use crate::draw::{draw, Drawing};
use crate::sheet::{Answer, Sheet, MAX_DARTS, MAX_EDGES};
use crate::trace_faces::trace_faces;

/// Two bars and 256 wires have the most: as many faces as wires, and each wire but 0.
pub const MAX_SEGMENTS: usize = 2 * MAX_EDGES - 1;

/// "each segment is upright or level with three float coordinates": x and from where to where it runs
/// upward, or y and from where to where it runs to the right. The numbers are 32-bit floats, or the whole
/// numbers of halves that they stand for.
#[derive(Clone, Copy, Debug, PartialEq, Eq)]
pub enum MaskSegment<Number> {
    Upright(Number, Number, Number),
    Level(Number, Number, Number),
}

impl<Number: Copy> MaskSegment<Number> {
    fn map<Other>(self, convert: impl Fn(Number) -> Other) -> MaskSegment<Other> {
        match self {
            MaskSegment::Upright(x, low, high) => {
                MaskSegment::Upright(convert(x), convert(low), convert(high))
            }
            MaskSegment::Level(y, left, right) => {
                MaskSegment::Level(convert(y), convert(left), convert(right))
            }
        }
    }

    /// Its two ends, each as x and y.
    pub fn ends(self) -> [(Number, Number); 2] {
        match self {
            MaskSegment::Upright(x, low, high) => [(x, low), (x, high)],
            MaskSegment::Level(y, left, right) => [(left, y), (right, y)],
        }
    }
}

/// "a frame holds the least and greatest x and y of all mask segments"
#[derive(Clone, Copy, Debug, PartialEq, Eq)]
pub struct Frame<Number> {
    pub least_x: Number,
    pub greatest_x: Number,
    pub least_y: Number,
    pub greatest_y: Number,
}

/// The segments, of which the first `count` are in use, and their frame.
#[derive(Clone, Copy, Debug, PartialEq, Eq)]
pub struct Mask<Number> {
    pub count: usize,
    pub segments: [MaskSegment<Number>; MAX_SEGMENTS],
    pub frame: Frame<Number>,
}

impl<Number: Copy> Mask<Number> {
    /// The same in other numbers.
    pub fn map<Other>(&self, convert: impl Fn(Number) -> Other) -> Mask<Other> {
        let Frame { least_x, greatest_x, least_y, greatest_y } = self.frame;
        Mask {
            count: self.count,
            segments: self.segments.map(|segment| segment.map(&convert)),
            frame: Frame {
                least_x: convert(least_x),
                greatest_x: convert(greatest_x),
                least_y: convert(least_y),
                greatest_y: convert(greatest_y),
            },
        }
    }

    pub fn used(&self) -> &[MaskSegment<Number>] {
        &self.segments[..self.count]
    }
}

impl Mask<i32> {
    /// These segments; the entries past them are uprights of three zeros.
    fn of(segments: &[MaskSegment<i32>], frame: Frame<i32>) -> Mask<i32> {
        let mut entries = [MaskSegment::Upright(0, 0, 0); MAX_SEGMENTS];
        entries[..segments.len()].copy_from_slice(segments);
        Mask { count: segments.len(), segments: entries, frame }
    }
}

/// The mask in floats.
pub fn insulation_mask(sheet: &Sheet) -> (Answer, Mask<f32>) {
    let (answer, mask) = mask_in_halves(sheet);
    (answer, mask.map(float))
}

/// The mask in whole numbers of halves. "Refused 9, there are no segments and the frame is four zeros."
pub fn mask_in_halves(sheet: &Sheet) -> (Answer, Mask<i32>) {
    let (answer, drawing) = draw(sheet);
    if let Err(refusal) = answer {
        let frame = Frame { least_x: 0, greatest_x: 0, least_y: 0, greatest_y: 0 };
        return (Err(refusal), Mask::of(&[], frame));
    }
    // Since C-15 "faces are numbered from 0 in the order of their lowest such end", by which their walk
    // leaves its bar: "Segments come in this order: faces by the lowest end that a walk of theirs leaves
    // its bar by, then wires from 1 up."
    let figure = Figure { sheet, drawing: &drawing, faces: trace_faces(sheet).1 };
    let face_count = sheet.edges + 2 - sheet.vertices;
    let mut segments: Vec<_> = (0..face_count).map(|face| figure.upright(face as u16)).collect();
    segments.extend((1..sheet.edges).map(|k| figure.level(k)));
    (Ok(()), Mask::of(&segments, frame_of(&segments)))
}

/// A sheet, its drawing, and the face of each walk.
struct Figure<'a> {
    sheet: &'a Sheet,
    drawing: &'a Drawing,
    faces: [u16; MAX_DARTS],
}

impl Figure<'_> {
    /// The left face of wire k and its right face.
    fn sides(&self, k: usize) -> [u16; 2] {
        [self.faces[2 * k], self.faces[2 * k + 1]]
    }

    /// "half a column left of its column": "A wire stands in the column of its left face", and each face
    /// is the left face of some wire.
    fn x(&self, face: u16) -> i32 {
        let wire = (0..self.sheet.edges).find(|&k| self.sides(k)[0] == face);
        let wire = wire.expect("a wire leads on from each face, or wire 0 to it");
        2 * i32::from(self.drawing.edges[wire].column) - 1
    }

    /// "half a row above the tail's row", where the wire begins
    fn y(&self, k: usize) -> i32 {
        2 * i32::from(self.drawing.edges[k].low) + 1
    }

    /// "For each face there is an upright segment half a column left of its column. [...] A face segment
    /// runs from the lowest to the highest of the level segments that end on it." Wire 0 has none.
    fn upright(&self, face: u16) -> MaskSegment<i32> {
        let ends_here = (1..self.sheet.edges).filter(|&k| self.sides(k).contains(&face));
        let mut heights: Vec<i32> = ends_here.map(|k| self.y(k)).collect();
        heights.sort_unstable();
        let [Some(&low), Some(&high)] = [heights.first(), heights.last()] else {
            panic!("face {face} has wire 0 alone");
        };
        MaskSegment::Upright(self.x(face), low, high)
    }

    /// "For each wire but 0 there is a level segment half a row above the tail's row, from its left face's
    /// segment to its right face's."
    fn level(&self, k: usize) -> MaskSegment<i32> {
        let [left, right] = self.sides(k).map(|face| self.x(face));
        MaskSegment::Level(self.y(k), left, right)
    }
}

/// "the least and greatest x and y of all mask segments", of which there is one or more
fn frame_of(segments: &[MaskSegment<i32>]) -> Frame<i32> {
    let (mut xs, mut ys): (Vec<i32>, Vec<i32>) =
        segments.iter().flat_map(|segment| segment.ends()).unzip();
    xs.sort_unstable();
    ys.sort_unstable();
    let last = xs.len() - 1;
    Frame { least_x: xs[0], greatest_x: xs[last], least_y: ys[0], greatest_y: ys[last] }
}

/// "twice each float is the whole number it stands for": the 32-bit float that is so many halves, put
/// together from its sign, its exponent and its fraction. Of fewer than 2 to the 24th halves, up or down.
pub fn float(halves: i32) -> f32 {
    let size = halves.unsigned_abs();
    if size == 0 {
        return f32::from_bits(0);
    }
    assert!(size < 1 << 24, "{halves} halves");
    // The halves are 1.fraction times 2 to the `exponent`, the float 2 to the one less, which is held
    // with 127 added to it.
    let exponent = size.ilog2();
    let fraction = (size << (23 - exponent)) & 0x007f_ffff;
    let sign = u32::from(halves < 0) << 31;
    f32::from_bits(sign | (exponent + 126) << 23 | fraction)
}

/// The whole number of halves that the float is, where it is one below 2 to the 24th, up or down. A 64-bit
/// float holds twice any 32-bit float exactly.
pub fn halves(float: f32) -> Option<i32> {
    let twice = 2.0 * f64::from(float);
    (twice.trunc() == twice && twice.abs() < f64::from(1 << 24)).then_some(twice as i32)
}

#[cfg(test)]
mod tests {
    use super::*;

    #[test]
    fn floats_of_halves() {
        let limit: i32 = (1 << 24) - 1;
        let far = (0..24).flat_map(|bit| [-1, 0, 1].map(|more| (1i32 << bit) + more));
        for size in (0..=3000).chain(far).chain([limit]).filter(|size| *size <= limit) {
            for number in [size, -size] {
                let expected = number as f32 / 2.0;
                assert_eq!(float(number).to_bits(), expected.to_bits(), "{number} halves");
                assert_eq!(halves(expected), Some(number));
            }
        }
        assert_eq!(float(-1).to_bits(), 0xbf00_0000);
        assert_eq!(float(0).to_bits(), 0);
        assert_eq!(float(1).to_bits(), 0x3f00_0000);
        assert_eq!(float(509).to_bits(), 0x437e_8000);
    }

    #[test]
    fn floats_that_are_no_halves() {
        let odd = [0.25, -0.75, f32::MIN_POSITIVE, 1e-45, 254.75, 126.49999];
        let far = [8_388_608.0, -8_388_608.0, f32::MAX, f32::INFINITY, -f32::INFINITY, f32::NAN];
        for float in odd.into_iter().chain(far) {
            assert_eq!(halves(float), None, "{float}");
        }
        assert_eq!(halves(-0.0), Some(0));
    }

    #[test]
    fn the_fresh_sheet() {
        // Left of wire 0 and right of wire 1 is face 0, in column 1.
        let (answer, mask) = mask_in_halves(&Sheet::fresh());
        assert_eq!((answer, mask.count), (Ok(()), 3));
        let used = [
            MaskSegment::Upright(1, 1, 1),
            MaskSegment::Upright(-1, 1, 1),
            MaskSegment::Level(1, -1, 1),
        ];
        assert_eq!(mask.used(), used);
        assert!(mask.segments[3..].iter().all(|&entry| entry == MaskSegment::Upright(0, 0, 0)));
        let frame = Frame { least_x: -1, greatest_x: 1, least_y: 1, greatest_y: 1 };
        assert_eq!(mask.frame, frame);
        assert_eq!(
            insulation_mask(&Sheet::fresh()),
            (Ok(()), mask.map(|number| number as f32 / 2.0))
        );
    }
}
