//! All broken rules mended, one after another.

use reference::file::Refusal;

use super::lines;
use super::mending::all_mended;
use crate::agreement::Refused;

/// The changes of all mendings, and the rules that are broken after them.
pub struct Together {
    pub changes: Vec<(String, String)>,
    pub remaining: Vec<Refusal>,
}

/// None where the file could not be read.
pub fn together(refused: &Refused) -> Option<Together> {
    let (road, judgement) = refused.read.as_ref()?;
    let (mended, after) = all_mended(road, judgement);
    Some(Together {
        changes: lines::changes(road, &mended),
        remaining: after.broken,
    })
}
