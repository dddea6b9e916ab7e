//! Compares the tile grid: its build, queries to it, and the calls that blank and clear its tiles.

use crate::corner::{NEIGHBORHOOD, OFFSET, PICTURE, TILE};
use crate::fault::{self, Fault};
use crate::mistake;
use crate::rng::Rng;
use crate::run::{Checked, Plan, Run, Subject};

mod blanking;
mod build;
mod calls;
mod make;
mod query;

pub use make::{at_corners, settings};

/// The faults of a query for a pixel, and those of one for a row.
const OF_A_PIXEL: &[&[Fault]] = &[fault::ASKING, fault::VALUE];
const OF_A_ROW: &[&[Fault]] = &[fault::ASKING, fault::VALUE, mistake::ASKING];

const fn query(
    name: &'static str, faults: &'static [&'static [Fault]], random: fn(&mut Run, &mut Rng) -> Checked,
    fixed: fn(&mut Run, &Plan) -> Checked,
) -> Subject {
    Subject {
        name,
        refuses: &[7, 9, 10],
        corners: &[PICTURE, TILE],
        faults,
        round: 60_000,
        random,
        fixed,
    }
}

/// Each random case is a list of calls of both kinds, and of queries for rows.
const fn blanking(name: &'static str, fixed: fn(&mut Run, &Plan) -> Checked) -> Subject {
    Subject {
        name,
        refuses: &[7, 9, 10],
        corners: &[PICTURE, TILE],
        faults: &[fault::SKIPPING, mistake::SKIPPING],
        round: 10_000,
        random: calls::random,
        fixed,
    }
}

pub const SUBJECTS: &[Subject] = &[
    Subject {
        name: "tile_grid_build",
        refuses: &[1, 2, 3, 4, 7, 8, 10],
        corners: &[PICTURE, TILE, NEIGHBORHOOD, OFFSET],
        faults: &[fault::writing(4), fault::TILES, mistake::BUILDING],
        round: 60_000,
        random: make::random,
        fixed: make::fixed,
    },
    query(
        "threshold_at",
        OF_A_PIXEL,
        |run, rng| query::random(run, rng, query::Call::ThresholdAt),
        |run, plan| query::fixed(run, plan, query::Call::ThresholdAt),
    ),
    query(
        "is_skip",
        OF_A_PIXEL,
        |run, rng| query::random(run, rng, query::Call::IsSkip),
        |run, plan| query::fixed(run, plan, query::Call::IsSkip),
    ),
    query(
        "row_all_skip",
        OF_A_ROW,
        |run, rng| query::random(run, rng, query::Call::RowAllSkip),
        |run, plan| query::fixed(run, plan, query::Call::RowAllSkip),
    ),
    blanking("blank_tile", |run, plan| calls::fixed(run, plan, blanking::Call::Blank)),
    blanking("clear_tile", |run, plan| calls::fixed(run, plan, blanking::Call::Clear)),
];
