//! The text of an alignment file: its lines, what stands in each, and the numbers that they are written as.

pub mod date;
pub mod fields;
pub mod file;
pub mod lines;
pub mod numbers;
pub mod table;

/// The longest file that has a text, in bytes; the longest that is listed has 8,192.
pub const MOST_BYTES: usize = 65_536;
