//! Reference implementation of jumper plates: bars, wires and faces on one copper layer.
//!
//! The code uses the terms of graph drawing: a bar is a vertex, a wire is a directed edge,
//! an end of a wire is a dart (2k at the tail of edge k, 2k + 1 at its head), the ring of
//! next-ends of a bar is the clockwise rotation at that vertex. The quoted sentences in the
//! comments are those of the specification.

pub mod check_drawing;
pub mod directions;
pub mod draw;
pub mod edit;
pub mod generate;
pub mod insulated;
pub mod levels;
pub mod load;
pub mod mask;
pub mod plate;
pub mod read_edit;
pub mod segments;
pub mod sheet;
pub mod sound;
pub mod standard;
pub mod text;
pub mod trace;
pub mod trace_faces;
pub mod verify;
pub mod write;

pub use check_drawing::check_drawing;
pub use directions::{permitted, same_links};
pub use draw::{draw, Drawing, EdgeSegment, VertexSegment};
pub use edit::{apply, put_in, run, take_out_bar, take_out_wire, Edit};
pub use insulated::check_insulation;
pub use levels::levels;
pub use load::{load, load_links};
pub use mask::{insulation_mask, mask_in_halves, Frame, Mask, MaskSegment, MAX_SEGMENTS};
pub use plate::{plate, plate_by};
pub use read_edit::read_edit;
pub use sheet::{Answer, Sheet, MAX_DARTS, MAX_EDGES, MAX_VERTICES};
pub use sound::is_sound;
pub use trace::trace;
pub use trace_faces::trace_faces;
pub use verify::{verify, verify_by};
pub use write::{write_drawing, write_sheet};
