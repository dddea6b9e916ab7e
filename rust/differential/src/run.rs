//! Runs cases, counts them by subject and by corner, and stops at the first difference.

use crate::case::{held, smallest, Case, Expected};
use crate::corner::Corner;
use crate::fault::Fault;
use crate::rng::Rng;
use std::collections::{BTreeMap, BTreeSet};

/// A difference, reported with the smallest input found.
pub struct Difference(pub String);

pub type Checked = Result<(), Difference>;

/// Checks that default settings are the Rust's. Both are given as one tuple of the same fields.
pub fn same_defaults<T: PartialEq>(call: &str, ours: T, rust: T) -> Checked {
    if ours == rust {
        Ok(())
    } else {
        Err(Difference(format!("{call}: the default settings")))
    }
}

/// The part of the fixed cases that a run includes.
#[derive(Clone, Copy)]
pub struct Plan {
    /// All two-level pictures of up to this many pixels are run.
    pub two_levels: usize,
    /// All three-level pictures of up to this many pixels are run.
    pub three_levels: usize,
    /// True if the largest pictures are run.
    pub large: bool,
}

impl Plan {
    /// Tells whether a run has to reach a corner.
    pub fn asks(&self, corner: Corner) -> bool {
        self.large || !matches!(corner, Corner::LargestPicture | Corner::OftenWrappedTable)
    }
}

pub struct Subject {
    pub name: &'static str,
    /// The numbers of its refusals; each has to occur.
    pub refuses: &'static [u32],
    /// The corners of each setting that its call has. At every one a fixed case has to be accepted, or to be refused if
    /// the corner is just outside the domain.
    pub corners: &'static [&'static [Corner]],
    /// Faults that its comparison has to report: of its buffers and refusals, then of each number that it gives.
    pub faults: &'static [&'static [Fault]],
    /// The number of cases in a round of random ones.
    pub round: u64,
    pub random: fn(&mut Run, &mut Rng) -> Checked,
    /// Runs the exhaustive and boundary cases.
    pub fixed: fn(&mut Run, &Plan) -> Checked,
}

impl Subject {
    pub fn corners(&self) -> impl Iterator<Item = Corner> {
        self.corners.iter().copied().flatten().copied()
    }

    pub fn faults(&self) -> impl Iterator<Item = Fault> {
        self.faults.iter().copied().flatten().copied()
    }
}

pub fn no_fixed(_: &mut Run, _: &Plan) -> Checked {
    Ok(())
}

/// The number of cases by the number of their refusal; 0 is accepted.
pub type Count = BTreeMap<u32, u64>;

#[derive(Default)]
pub struct Run {
    pub counts: BTreeMap<&'static str, Count>,
    /// The number of cases by subject and corner: accepted ones, or refused ones at a corner just outside the domain.
    pub corners: BTreeMap<(&'static str, Corner), u64>,
    /// The names of the numbers that calls gave, by subject.
    pub numbers: BTreeSet<(&'static str, &'static str)>,
    /// The fault to plant at the first case that it fits.
    pub fault: Option<Fault>,
    /// The subject to which a fault is kept, since a list of calls has cases of several.
    pub planted_in: Option<&'static str>,
}

impl Run {
    pub fn case<C: Case>(&mut self, case: &C) -> Checked {
        let mut none = None;
        let planted_here = self.planted_in.unwrap_or(case.name()) == case.name();
        let fault = if planted_here { &mut self.fault } else { &mut none };
        let pending = fault.is_some();
        match held(case, fault) {
            Ok(expected) => {
                self.count(case, &expected);
                Ok(())
            }
            Err(what) if pending && self.fault.is_none() => Err(Difference(what)),
            Err(what) => {
                let (case, what) = smallest(case, what);
                Err(Difference(format!("{}: {what}\n{}", case.name(), case.tell())))
            }
        }
    }

    fn count<C: Case>(&mut self, case: &C, expected: &Expected<'_>) {
        *self.counts.entry(case.name()).or_default().entry(expected.number).or_default() += 1;
        self.numbers.extend(expected.outs.iter().map(|out| (case.name(), out.0)));
        let corners = if expected.number == 0 { case.corners() } else { case.past_corners(expected.number) };
        for corner in corners {
            *self.corners.entry((case.name(), corner)).or_default() += 1;
        }
    }

    /// Returns the number of cases of a subject at a corner.
    pub fn at(&self, subject: &Subject, corner: Corner) -> u64 {
        self.corners.get(&(subject.name, corner)).copied().unwrap_or(0)
    }

    /// Returns the corners that a subject has to reach and has not reached.
    pub fn unreached(&self, subject: &Subject, plan: &Plan) -> Vec<Corner> {
        subject.corners().filter(|&corner| plan.asks(corner) && self.at(subject, corner) == 0).collect()
    }
}
