//! Compares the image calls: layout, pixels and rows, packed planes.

use crate::corner;
use crate::fault::{writing, Fault, ANSWERING, ASKING, SETTING, VALUE};
use crate::rng::Rng;
use crate::run::{no_fixed, Checked, Plan, Run, Subject};

mod layout;
mod pixels;
mod planes;

/// Declares a call that has no settings besides a layout.
const fn subject(
    name: &'static str, refuses: &'static [u32], faults: &'static [&'static [Fault]], round: u64,
    random: fn(&mut Run, &mut Rng) -> Checked, fixed: fn(&mut Run, &Plan) -> Checked,
) -> Subject {
    Subject { name, refuses, corners: &[corner::PICTURE], faults, round, random, fixed }
}

pub const SUBJECTS: &[Subject] = &[
    subject(layout::NAME, &[1, 2, 3, 4], &[ANSWERING], 300_000, layout::random, layout::fixed),
    // It needs no fixed cases: those of the line above have such lengths too.
    subject(layout::LONG, &[1, 2, 3, 4], &[ANSWERING], 100_000, layout::random_long, no_fixed),
    subject(
        "get",
        &[1, 2, 3, 4, 9],
        &[ASKING, VALUE],
        150_000,
        |run, rng| pixels::random(run, rng, pixels::Call::Get),
        |run, plan| pixels::fixed(run, plan, pixels::Call::Get),
    ),
    subject(
        "set",
        &[1, 2, 3, 4, 9],
        &[SETTING],
        150_000,
        |run, rng| pixels::random(run, rng, pixels::Call::Set),
        |run, plan| pixels::fixed(run, plan, pixels::Call::Set),
    ),
    subject(
        "row",
        &[1, 2, 3, 4, 8, 9],
        &[writing(1)],
        150_000,
        |run, rng| pixels::random(run, rng, pixels::Call::Row),
        |run, plan| pixels::fixed(run, plan, pixels::Call::Row),
    ),
    subject(
        "pack",
        &[1, 2, 3, 4, 8],
        &[writing(1)],
        100_000,
        |run, rng| planes::random(run, rng, true),
        |run, plan| planes::fixed(run, plan, true),
    ),
    subject(
        "unpack",
        &[1, 2, 3, 4, 8],
        &[writing(1)],
        100_000,
        |run, rng| planes::random(run, rng, false),
        |run, plan| planes::fixed(run, plan, false),
    ),
];
