//! Every limit of document 01, once.

pub const SOURCE_BYTES: usize = 32_768;
pub const OPENINGS: usize = 32;
pub const REFERENCE_NAMES: usize = 32;
pub const NAME_BYTES: usize = 255;
/// For a decoded string and for a decimal's text.
pub const LONG_TEXT_BYTES: usize = 4_095;

pub const STEPS: usize = 1_024;
pub const STEP_TEXT_BYTES: usize = 32_768;
/// A source place in a step list lies below this.
pub const PLACES: u32 = 32_768;

pub const DEPTH: usize = 32;
pub const NODES: usize = 1_024;
pub const TABLE_TEXT_BYTES: usize = 16_384;
