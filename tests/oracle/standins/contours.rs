//! Stands in for the `contours` module, which the sources at hand leave out and no job uses:
//! only its names, so that `lib.rs` can re-export them.

pub struct Contours;
pub struct Step;
pub fn contours() {}
pub fn reversed() {}
