//! A road and the speed that it is designed for.

use std::ops::{Deref, DerefMut};

use reference::file::Alignment;
use reference::limits::{limits_at, Limits};

#[derive(Clone)]
pub struct Road {
    pub alignment: Alignment,
    /// The speed whose row it keeps: that of its class and terrain, or another.
    pub speed: i128,
}

impl Road {
    /// The row that it is designed by.
    pub fn limits(&self) -> Limits {
        limits_at(self.speed, self.alignment.contract)
    }
}

impl Deref for Road {
    type Target = Alignment;

    fn deref(&self) -> &Alignment {
        &self.alignment
    }
}

impl DerefMut for Road {
    fn deref_mut(&mut self) -> &mut Alignment {
        &mut self.alignment
    }
}
