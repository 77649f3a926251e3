//! The drawings of a road, in SVG.

pub mod canvas;
pub mod columns;
pub mod crossfall;
pub mod distance;
pub mod grades;
pub mod heads;
pub mod joints;
pub mod marking;
pub mod pair;
pub mod panel;
pub mod path;
pub mod plan;
pub mod profile;
pub mod sheet;
pub mod spread;
pub mod style;
pub mod text_width;
pub mod ticks;
