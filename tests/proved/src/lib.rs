//! The calls of the proved library, as safe functions over the reference's types.
//!
//! The declarations below are the C names that the crate `exports` gives the calls. Nothing checks them against the
//! source, so this file is the only place that has them.

use reference::{Drawing, EdgeSegment, Edit, Frame, Mask, MaskSegment, Sheet, VertexSegment, MAX_SEGMENTS};

mod calls {
    /// A drawing as the proved library lays it out: each bar and each wire is three numbers.
    #[repr(C)]
    pub struct Record {
        pub rows: u16,
        pub columns: u16,
        pub vertices: [[u16; 3]; 128],
        pub edges: [[u16; 3]; 256],
    }

    extern "C" {
        pub fn walnut_levels(
            nodes: usize,
            edges: usize,
            from: &[u16; 256],
            to: &[u16; 256],
            level: &mut [u16; 256],
        ) -> bool;
        pub fn walnut_trace(size: usize, step: &[u16; 512], orbit: &mut [u16; 512]) -> usize;
        pub fn walnut_is_sound(
            vertices: usize,
            edges: usize,
            tails: &[u16; 256],
            heads: &[u16; 256],
            nexts: &[u16; 512],
        ) -> bool;
        pub fn walnut_trace_faces(
            vertices: usize,
            edges: usize,
            tails: &[u16; 256],
            heads: &[u16; 256],
            nexts: &[u16; 512],
            faces: &mut [u16; 512],
        ) -> u16;
        pub fn walnut_insulation_mask(
            vertices: usize,
            edges: usize,
            tails: &[u16; 256],
            heads: &[u16; 256],
            nexts: &[u16; 512],
            mask: &mut super::LentMask,
        ) -> u16;
        pub fn walnut_load(
            text: *const u8,
            length: usize,
            vertices: &mut usize,
            edges: &mut usize,
            tails: &mut [u16; 256],
            heads: &mut [u16; 256],
            nexts: &mut [u16; 512],
            taken: &mut usize,
        ) -> u16;
        pub fn walnut_load_links(
            text: *const u8,
            length: usize,
            vertices: &mut usize,
            edges: &mut usize,
            tails: &mut [u16; 256],
            heads: &mut [u16; 256],
            nexts: &mut [u16; 512],
            taken: &mut usize,
        ) -> u16;
        pub fn walnut_write_sheet(
            vertices: usize,
            edges: usize,
            tails: &[u16; 256],
            heads: &[u16; 256],
            nexts: &[u16; 512],
            buffer: *mut u8,
            length: usize,
            count: &mut usize,
        ) -> u16;
        pub fn walnut_edit(
            kind: u16,
            a: usize,
            p: usize,
            b: usize,
            q: usize,
            vertices: &mut usize,
            edges: &mut usize,
            tails: &mut [u16; 256],
            heads: &mut [u16; 256],
            nexts: &mut [u16; 512],
        ) -> u16;
        pub fn walnut_write_drawing(
            vertices: usize,
            edges: usize,
            tails: &[u16; 256],
            heads: &[u16; 256],
            nexts: &[u16; 512],
            buffer: *mut u8,
            length: usize,
            count: &mut usize,
        ) -> u16;
        pub fn walnut_check_drawing(
            vertices: usize,
            edges: usize,
            tails: &[u16; 256],
            heads: &[u16; 256],
            nexts: &[u16; 512],
            text: *const u8,
            length: usize,
        ) -> u16;
        pub fn walnut_read_edit(
            text: *const u8,
            length: usize,
            numbers: &mut [u16; 4],
            taken: &mut usize,
        ) -> u16;
        pub fn walnut_replay(
            calls: *const usize,
            calls_length: usize,
            text: *const u8,
            text_length: usize,
            answers: *mut usize,
            answers_length: usize,
        ) -> Record;
        pub fn walnut_plate(
            input: *const u8,
            input_length: usize,
            buffer: *mut u8,
            buffer_length: usize,
            count: &mut usize,
        ) -> u16;
    }
}

/// A buffer of this many bytes is long enough for what `plate` prints, whatever it reads.
pub const LONGEST_OUTPUT: usize = 187_031;

/// The longest-path level of every node, or `None` where there is a circle.
pub fn levels(nodes: usize, edges: usize, from: &[u16; 256], to: &[u16; 256]) -> Option<[u16; 256]> {
    let mut level = [0; 256];
    let acyclic = unsafe { calls::walnut_levels(nodes, edges, from, to, &mut level) };
    acyclic.then_some(level)
}

/// The number of orbits of a permutation, and the number of each element's orbit.
pub fn trace(size: usize, step: &[u16; 512]) -> (usize, [u16; 512]) {
    let mut orbit = [0; 512];
    let count = unsafe { calls::walnut_trace(size, step, &mut orbit) };
    (count, orbit)
}

/// Whether a record is a sound sheet.
pub fn is_sound(sheet: &Sheet) -> bool {
    unsafe {
        calls::walnut_is_sound(sheet.vertices, sheet.edges, &sheet.tails, &sheet.heads, &sheet.nexts)
    }
}

/// The table of faces: the answer's number (0 for acceptance), and the number of the face of each end's walk. The table is
/// lent full of a number that no face has, which would show where the call leaves it.
pub fn trace_faces(sheet: &Sheet) -> (u16, [u16; 512]) {
    let mut faces = [999; 512];
    let number = unsafe {
        calls::walnut_trace_faces(
            sheet.vertices,
            sheet.edges,
            &sheet.tails,
            &sheet.heads,
            &sheet.nexts,
            &mut faces,
        )
    };
    (number, faces)
}

/// A segment of a mask as the proved library lays it out: its kind, 0 for upright and 1 for level, then where it is, and
/// from where to where it runs.
#[repr(C)]
#[derive(Clone, Copy, Debug)]
pub struct LentSegment {
    pub kind: u16,
    pub numbers: [f32; 3],
}

/// A mask as the proved library lays it out, to be lent to the call.
#[repr(C)]
#[derive(Clone, Copy, Debug)]
pub struct LentMask {
    pub count: usize,
    pub segments: [LentSegment; MAX_SEGMENTS],
    pub frame: [f32; 4],
}

impl LentMask {
    /// Full of what no mask has, which would show where the call leaves it.
    pub fn full() -> LentMask {
        let segment = LentSegment { kind: 1, numbers: [f32::NAN; 3] };
        LentMask { count: 999, segments: [segment; MAX_SEGMENTS], frame: [f32::NAN; 4] }
    }

    /// The same as the reference has it.
    pub fn mask(&self) -> Mask<f32> {
        let segment = |LentSegment { kind, numbers: [at, from, to] }: LentSegment| match kind {
            0 => MaskSegment::Upright(at, from, to),
            1 => MaskSegment::Level(at, from, to),
            _ => panic!("a segment of kind {kind}"),
        };
        let [least_x, greatest_x, least_y, greatest_y] = self.frame;
        let frame = Frame { least_x, greatest_x, least_y, greatest_y };
        Mask { count: self.count, segments: self.segments.map(segment), frame }
    }
}

/// The insulation mask, put into the lent one: the answer's number, 0 for acceptance.
pub fn insulation_mask_into(sheet: &Sheet, mask: &mut LentMask) -> u16 {
    unsafe {
        calls::walnut_insulation_mask(
            sheet.vertices,
            sheet.edges,
            &sheet.tails,
            &sheet.heads,
            &sheet.nexts,
            mask,
        )
    }
}

/// The insulation mask: the answer's number and the mask.
pub fn insulation_mask(sheet: &Sheet) -> (u16, Mask<f32>) {
    let mut lent = LentMask::full();
    let number = insulation_mask_into(sheet, &mut lent);
    (number, lent.mask())
}

/// A load under its C name.
type Loader = unsafe extern "C" fn(
    *const u8,
    usize,
    &mut usize,
    &mut usize,
    &mut [u16; 256],
    &mut [u16; 256],
    &mut [u16; 512],
    &mut usize,
) -> u16;

/// The answer's number of a load (0 for acceptance), the sheet returned, and the bytes taken.
fn load_by(loader: Loader, text: &[u8], present: &Sheet) -> (u16, Sheet, usize) {
    let (mut sheet, mut taken) = (*present, 0);
    let number = unsafe {
        loader(
            text.as_ptr(),
            text.len(),
            &mut sheet.vertices,
            &mut sheet.edges,
            &mut sheet.tails,
            &mut sheet.heads,
            &mut sheet.nexts,
            &mut taken,
        )
    };
    (number, sheet, taken)
}

/// Load.
pub fn load(text: &[u8], present: &Sheet) -> (u16, Sheet, usize) {
    load_by(calls::walnut_load, text, present)
}

/// The load of links.
pub fn load_links(text: &[u8], present: &Sheet) -> (u16, Sheet, usize) {
    load_by(calls::walnut_load_links, text, present)
}

/// A writer under its C name.
type Writer = unsafe extern "C" fn(
    usize,
    usize,
    &[u16; 256],
    &[u16; 256],
    &[u16; 512],
    *mut u8,
    usize,
    &mut usize,
) -> u16;

/// The answer's number of a writer and the count of bytes written to the front of the buffer.
fn write(writer: Writer, sheet: &Sheet, buffer: &mut [u8]) -> (u16, usize) {
    let mut count = 0;
    let number = unsafe {
        writer(
            sheet.vertices,
            sheet.edges,
            &sheet.tails,
            &sheet.heads,
            &sheet.nexts,
            buffer.as_mut_ptr(),
            buffer.len(),
            &mut count,
        )
    };
    (number, count)
}

/// Write sheet.
pub fn write_sheet(sheet: &Sheet, buffer: &mut [u8]) -> (u16, usize) {
    write(calls::walnut_write_sheet, sheet, buffer)
}

/// Write drawing.
pub fn write_drawing(sheet: &Sheet, buffer: &mut [u8]) -> (u16, usize) {
    write(calls::walnut_write_drawing, sheet, buffer)
}

/// The check of a drawing's text for a sheet: the answer's number, 0 for acceptance.
pub fn check_drawing(sheet: &Sheet, text: &[u8]) -> u16 {
    unsafe {
        calls::walnut_check_drawing(
            sheet.vertices,
            sheet.edges,
            &sheet.tails,
            &sheet.heads,
            &sheet.nexts,
            text.as_ptr(),
            text.len(),
        )
    }
}

/// An edit: the answer's number (0 for acceptance) and the sheet returned.
pub fn edit(sheet: &Sheet, edit: Edit) -> (u16, Sheet) {
    let (kind, numbers) = match edit {
        Edit::In(k) => (0, [k, 0, 0, 0]),
        Edit::Run(a, p, b, q) => (1, [a, p, b, q]),
        Edit::Out(k) => (2, [k, 0, 0, 0]),
        Edit::Off(v) => (3, [v, 0, 0, 0]),
    };
    edit_by_kind(sheet, kind, numbers)
}

/// The same by the edit's kind: 0 in, 1 run, 2 out, 3 off, any other refused 1.
pub fn edit_by_kind(sheet: &Sheet, kind: u16, [a, p, b, q]: [usize; 4]) -> (u16, Sheet) {
    let mut after = *sheet;
    let number = unsafe {
        calls::walnut_edit(
            kind,
            a,
            p,
            b,
            q,
            &mut after.vertices,
            &mut after.edges,
            &mut after.tails,
            &mut after.heads,
            &mut after.nexts,
        )
    };
    (number, after)
}

/// The edit at the front of a text as its kind (0 in, 1 run, 2 out, 3 off, 5 refused) with its numbers, and the bytes taken.
pub fn read_edit(text: &[u8]) -> (u16, [u16; 4], usize) {
    let (mut numbers, mut taken) = ([0; 4], 0);
    let kind = unsafe { calls::walnut_read_edit(text.as_ptr(), text.len(), &mut numbers, &mut taken) };
    (kind, numbers, taken)
}

/// A list of calls from the fresh sheet, five numbers a call; each one's number and bytes taken go to the front of the
/// answers, two a call. Tells the drawing of the sheet that the list leaves.
pub fn replay(calls: &[usize], text: &[u8], answers: &mut [usize]) -> Drawing {
    let record = unsafe {
        calls::walnut_replay(
            calls.as_ptr(),
            calls.len(),
            text.as_ptr(),
            text.len(),
            answers.as_mut_ptr(),
            answers.len(),
        )
    };
    Drawing {
        rows: record.rows,
        columns: record.columns,
        vertices: record.vertices.map(|[row, first, last]| VertexSegment { row, first, last }),
        edges: record.edges.map(|[column, low, high]| EdgeSegment { column, low, high }),
    }
}

/// What `plate` prints for an input, in the front of the buffer: the answer's number and the count of bytes.
pub fn plate(input: &[u8], buffer: &mut [u8]) -> (u16, usize) {
    let mut count = 0;
    let number = unsafe {
        calls::walnut_plate(input.as_ptr(), input.len(), buffer.as_mut_ptr(), buffer.len(), &mut count)
    };
    (number, count)
}
