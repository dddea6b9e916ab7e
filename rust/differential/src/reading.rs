//! Compares the reading with a chain of the Rust's own calls.

use crate::corner::{ELEMENT, KERNEL, NEIGHBORHOOD, OFFSET, PICTURE, RADIUS, TILE};
use crate::fault;
use crate::mistake;
use crate::run::Subject;

mod chain;
mod compare;
mod make;
mod shrink;

pub use chain::Reading;
pub use shrink::smaller as simpler;

pub const SUBJECTS: &[Subject] = &[Subject {
    name: "reading",
    refuses: &[1, 2, 3, 4, 5, 6, 7, 8, 10],
    corners: &[PICTURE, ELEMENT, KERNEL, TILE, NEIGHBORHOOD, RADIUS, OFFSET],
    faults: &[fault::writing(4), fault::JUDGED, fault::COMPARISONS, mistake::BUILDING, mistake::READING],
    round: 30_000,
    random: make::random,
    fixed: make::fixed,
}];
