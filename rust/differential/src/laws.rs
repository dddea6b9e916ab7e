//! Checks two laws through the library alone, without the Rust. Away from the border an opening lies under its source
//! and a closing over it. A cut at a level, and any other monotone map of samples, may be made before or after each of
//! the four calls. The self-test refutes claims that are nearly these laws.

use crate::case::listed;
use crate::layouts::{good, needed, picture};
use crate::levels;
use crate::morphology::{shape, Kind};
use crate::rng::{Rng, Word};
use crate::run::{Checked, Difference, Plan};
use imgproc::morphology::workspace_len;
use imgproc::Geometry;
use std::collections::BTreeMap;
use Kind::*;
use Law::*;

/// The number of trials in a round; each checks every law.
pub const ROUND: u64 = 4_000;
/// The number of trials in which the self-test has to refute a claim.
const TRIALS: u64 = 4_000;

/// A slice and the geometry of its picture.
type Picture = (Vec<u8>, Geometry);

/// A source, a kernel and a level, and what a second source and the two destinations hold before the calls.
struct Trial {
    source: Picture,
    kernel_size: usize,
    level: u8,
    mapped: Picture,
    first: Picture,
    second: Picture,
}

enum Law {
    /// The test holds of the pixel that the call left and the source's, at each place that has so many pixels or more
    /// between it and each border; the first function gives the number for r = (k - 1) / 2.
    Inner(fn(usize) -> usize, fn(u8, u8) -> bool),
    /// The call over the mapped source leaves the mapped rows. The map takes the level and a sample.
    Mapped(fn(u8, u8) -> u8),
}

/// A law claimed of calls.
struct Claim {
    name: &'static str,
    kinds: &'static [Kind],
    law: Law,
}

const FOUR: &[Kind] = &[Erode, Dilate, Open, Close];

const LAWS: &[Claim] = &[
    Claim { name: "at most the source", kinds: &[Open], law: Inner(|r| r, |left, source| left <= source) },
    Claim { name: "at least the source", kinds: &[Close], law: Inner(|r| r, |left, source| left >= source) },
    Claim { name: "of a cut", kinds: FOUR, law: Mapped(cut) },
    Claim { name: "of a darkened picture", kinds: FOUR, law: Mapped(darkened) },
];

/// Claims that are false.
const FALSE: &[Claim] = &[
    Claim { name: "at most, nearer", kinds: &[Open], law: Inner(|r| r - 1, |left, source| left <= source) },
    Claim { name: "at least, nearer", kinds: &[Close], law: Inner(|r| r - 1, |left, source| left >= source) },
    Claim { name: "at least the source", kinds: &[Open], law: Inner(|r| r, |left, source| left >= source) },
    Claim { name: "at most the source", kinds: &[Close], law: Inner(|r| r, |left, source| left <= source) },
    Claim { name: "of a reversed cut", kinds: FOUR, law: Mapped(reversed) },
    Claim { name: "of a cut of one level alone", kinds: FOUR, law: Mapped(alone) },
];

impl Claim {
    fn of(&self, kind: Kind) -> String {
        format!("{kind:?} {}", self.name)
    }
}

/// Returns each claim with each call that it is made of.
fn each(claims: &'static [Claim]) -> impl Iterator<Item = (&'static Claim, Kind)> {
    claims.iter().flat_map(|claim| claim.kinds.iter().map(move |&kind| (claim, kind)))
}

/// 0 at or below the level, else 255.
fn cut(level: u8, sample: u8) -> u8 {
    if sample <= level {
        0
    } else {
        255
    }
}

fn darkened(level: u8, sample: u8) -> u8 {
    sample.saturating_sub(level)
}

fn reversed(level: u8, sample: u8) -> u8 {
    !cut(level, sample)
}

/// 0 at the level, else 255.
fn alone(level: u8, sample: u8) -> u8 {
    if sample == level {
        0
    } else {
        255
    }
}

fn pixel((data, g): &Picture, x: usize, y: usize) -> u8 {
    data[y * g.stride + x]
}

fn pixels(g: Geometry) -> impl Iterator<Item = (usize, usize)> {
    (0..g.height).flat_map(move |y| (0..g.width).map(move |x| (x, y)))
}

/// Tells whether position i of a line of n has `margin` or more samples before it and after it.
fn inner(margin: usize, n: usize, i: usize) -> bool {
    margin <= i && margin < n - i
}

impl Trial {
    /// Makes a trial with any sizes, strides, odd kernel and level.
    fn random(rng: &mut Rng) -> Self {
        let (kernel_size, width, height) = shape(rng);
        let source = picture(rng, width, height);
        let level = if rng.one_in(2) { rng.byte() } else { pixel(&source, rng.below(width), rng.below(height)) };
        let [mapped, first, second] = [(); 3].map(|()| good(rng, width, height));
        Self { source, kernel_size: (kernel_size | 1).max(3), level, mapped, first, second }
    }

    /// Makes a trial of packed pictures.
    fn packed(src: Vec<u8>, width: usize, height: usize, kernel_size: usize, level: u8) -> Self {
        let room = || (u8::noise(width * height, u64::from(level)), Geometry::packed(width, height));
        let source = (src, Geometry::packed(width, height));
        Self { source, kernel_size, level, mapped: room(), first: room(), second: room() }
    }

    fn tell(&self) -> String {
        let (src, s) = &self.source;
        format!("kernel {}, level {}\nsource {s:?}, {}", self.kernel_size, self.level, listed(src))
    }
}

/// Returns the destination after a call, which has to be accepted.
fn called(kind: Kind, (src, s): &Picture, mut dst: Picture, kernel_size: usize) -> Picture {
    let mut workspace = u8::noise(workspace_len(s.width, s.height), needed(*s) as u64);
    let answer = kind.safe()(src, *s, &mut dst.0, dst.1, kernel_size, &mut workspace);
    answer.unwrap_or_else(|refusal| panic!("{kind:?} with kernel {kernel_size}: refused, {refusal}"));
    dst
}

/// Returns the number of places, or else tells of the first at which the test fails.
fn counted(
    mut places: impl Iterator<Item = (usize, usize)>, holds: impl Fn(usize, usize) -> bool,
) -> Result<u64, String> {
    places.try_fold(0, |count, (x, y)| if holds(x, y) { Ok(count + 1) } else { Err(format!("false at ({x}, {y})")) })
}

impl Law {
    /// Returns at how many pixels the law was checked, or else tells of the first at which it is false.
    fn held(&self, kind: Kind, trial: &Trial) -> Result<u64, String> {
        let (source, g) = (&trial.source, trial.source.1);
        let left = called(kind, source, trial.first.clone(), trial.kernel_size);
        match self {
            Inner(margin, holds) => {
                let margin = margin((trial.kernel_size - 1) / 2);
                let places = pixels(g).filter(|&(x, y)| inner(margin, g.width, x) && inner(margin, g.height, y));
                counted(places, |x, y| holds(pixel(&left, x, y), pixel(source, x, y)))
            }
            Mapped(map) => {
                let mut mapped = trial.mapped.clone();
                for (x, y) in pixels(g) {
                    mapped.0[y * mapped.1.stride + x] = map(trial.level, pixel(source, x, y));
                }
                let second = called(kind, &mapped, trial.second.clone(), trial.kernel_size);
                counted(pixels(g), |x, y| pixel(&second, x, y) == map(trial.level, pixel(&left, x, y)))
            }
        }
    }
}

/// The trials of each law, and the pixels at which it was checked, by its name and call.
#[derive(Default)]
pub struct Counts(BTreeMap<String, (u64, u64)>);

impl Counts {
    fn every_law(&mut self, trial: &Trial) -> Checked {
        for (claim, kind) in each(LAWS) {
            let name = claim.of(kind);
            let told = |what| Difference(format!("{name}: {what}\n{}", trial.tell()));
            let pixels = claim.law.held(kind, trial).map_err(told)?;
            let count = self.0.entry(name).or_default();
            *count = (count.0 + 1, count.1 + pixels);
        }
        Ok(())
    }

    /// Runs all pictures of a few levels, and large ones.
    pub fn fixed(&mut self, plan: &Plan) -> Checked {
        for kernel_size in [3, 5, 7] {
            for level in [0, 254] {
                levels::all(plan.two_levels, &[0, 255], |src, w, h, _| {
                    self.every_law(&Trial::packed(src, w, h, kernel_size, level))
                })?;
            }
            for level in [6, 7, 8, 200] {
                levels::all(plan.three_levels, &[7, 8, 200], |src, w, h, _| {
                    self.every_law(&Trial::packed(src, w, h, kernel_size, level))
                })?;
            }
        }
        for (width, height) in [(4096, 1), (1, 4096), (4096, 5), (5, 4096), (640, 480)] {
            for kernel_size in [3, 5, 31, 65] {
                let src = u8::noise(width * height, kernel_size as u64);
                self.every_law(&Trial::packed(src, width, height, kernel_size, 127))?;
            }
        }
        Ok(())
    }

    pub fn random(&mut self, rng: &mut Rng) -> Checked {
        self.every_law(&Trial::random(rng))
    }

    /// Prints the counts, and checks that each law was checked at a pixel.
    pub fn table(&self) -> Result<(), String> {
        println!("| law | pictures | pixels |\n|---|---|---|");
        for name in each(LAWS).map(|(claim, kind)| claim.of(kind)) {
            let (pictures, pixels) = self.0.get(&name).copied().unwrap_or_default();
            println!("| {name} | {pictures} | {pixels} |");
            if pixels == 0 {
                return Err(format!("{name} was checked at no pixel"));
            }
        }
        Ok(())
    }
}

/// Refutes each false claim by a random trial, and returns how many there are.
pub fn refuted(seed: u64) -> Result<usize, String> {
    for (claim, kind) in each(FALSE) {
        let mut rng = Rng::new(seed);
        if (0..TRIALS).all(|_| claim.law.held(kind, &Trial::random(&mut rng)).is_ok()) {
            return Err(format!("self-test: {} was not refuted", claim.of(kind)));
        }
    }
    Ok(each(FALSE).count())
}
