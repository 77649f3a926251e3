//! The two sides of a road.

use reference::file::CrossfallPoint;

use crate::rows::Row;

#[derive(Clone, Copy, Debug, PartialEq, Eq)]
pub enum Side {
    Left,
    Right,
}

impl Side {
    pub const BOTH: [Side; 2] = [Side::Left, Side::Right];

    pub fn of_point(self) -> fn(&CrossfallPoint) -> i128 {
        match self {
            Side::Left => |point| point.left,
            Side::Right => |point| point.right,
        }
    }

    /// A row's printed edge.
    pub fn edge(self, row: &Row) -> i128 {
        match self {
            Side::Left => row.left_edge,
            Side::Right => row.right_edge,
        }
    }

    /// A row's station and printed edge.
    pub fn place(self, row: &Row) -> (i128, i128) {
        (row.station, self.edge(row))
    }
}
