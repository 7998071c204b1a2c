//! Inputs for comparisons, drawn from a seed: the same seed gives the same sequence.

pub mod drawings;
pub mod edits;
pub mod graphs;
pub mod inputs;
pub mod links;
pub mod random;
pub mod records;
pub mod sheets;
pub mod texts;

pub use drawings::{any_drawing, verify_input, Drawings};
pub use edits::{any_edit, any_number, edit_line, edit_text, likely_edit, refused_edit};
pub use graphs::{digraph, permutation};
pub use inputs::{inputs_of_every_size, special_inputs, truncations, variation, Inputs};
pub use links::{
    any_links, link_inputs_of_every_size, refused_links, special_link_inputs, LinkInputs, LinkTexts,
};
pub use random::Random;
pub use records::{damaged_record, directed_torus, refused_sheet, torus, Records};
pub use sheets::{extreme_sheets, grown, random_sheet, renumbered};
pub use texts::{damaged, link_text, mixed_ends, sheet_text};
