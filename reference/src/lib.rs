//! Document 01 with requests A.1 to A.5 of document 02 as plain code, in the papers' order, written from the
//! papers alone. Whole numbers are 128 bits wide; exact values are fractions of whole numbers. Nothing here
//! is proved: it is held against the proved library by `tests/independent`, and again at each use by the
//! desk's command.

#![forbid(unsafe_code)]

pub mod blade;
pub mod day;
pub mod file;
pub mod fraction;
pub mod limits;
pub mod machine;
pub mod marks;
pub mod pegs;
pub mod road;
pub mod rules;
pub mod stations;

#[cfg(test)]
mod tests;
