//! Keeps readings: reads a picture, makes the record, writes it and reads it back. The numbers are compared with the
//! chain of the Rust's calls.

use super::edge;
use super::make::answered;
use super::plain::{self, Numbers, BYTES};
use super::read::named;
use super::told;
use crate::case::{listed, Buffer, Case, Expected, Left, Outcome, Places};
use crate::corner::{self, Corner};
use crate::guard::Guarded;
use crate::layouts::{good, largest, picture};
use crate::levels;
use crate::reading::{simpler, Reading};
use crate::rng::{Rng, Word};
use crate::run::{Checked, Plan, Run};
use imgproc::reading::{reading, ReadingConfig};
use imgproc::records::Record;
use imgproc::{Geometry, Refusal};
use std::borrow::Cow;

#[derive(Clone)]
struct Kept {
    reading: Reading,
    flask: u32,
    pass: u16,
    /// The geometry of which the record is made: the picture's, or a false one.
    geometry: Geometry,
    dst: Vec<u8>,
}

impl Kept {
    fn new(reading: Reading, flask: u32, len: usize) -> Self {
        let (geometry, pass) = (reading.s, !flask as u16);
        Self { reading, flask, pass, geometry, dst: u8::noise(len, u64::from(flask)) }
    }

    /// Reads the picture, and keeps the reading in the destination.
    fn kept(&self, dst: &mut [u8]) -> Result<Record, Refusal> {
        let Reading { src, s, d, config, .. } = &self.reading;
        let mut marked = self.reading.dst.clone();
        let (mut bytes, mut u64s) = (vec![0; self.reading.bytes], vec![0; self.reading.u64s]);
        let mut open_tiles = vec![0; self.reading.open_tiles];
        let counts = reading(src, *s, &mut marked, *d, config, &mut bytes, &mut u64s, &mut open_tiles)?;
        let record = Record::of_reading(self.flask, self.pass, self.geometry, counts)?;
        record.write(dst)?;
        Record::read(dst)
    }

    /// Returns the numbers by the Rust's calls, before any is checked.
    fn numbers(&self) -> Result<Numbers, String> {
        let chained = self.reading.decided().map_err(|number| format!("the Rust refuses the reading with {number}"))?;
        let Geometry { width, height, .. } = self.geometry;
        Ok([
            u64::from(self.flask),
            u64::from(self.pass),
            width as u64,
            height as u64,
            chained.dark,
            chained.light,
            chained.skipped,
            self.reading.comparisons()?,
        ])
    }
}

impl Case for Kept {
    fn name(&self) -> &'static str {
        "kept_reading"
    }

    fn ours(&self) -> Outcome {
        let mut dst = Guarded::new(&self.dst);
        let (number, numbers) = answered(&self.kept(&mut dst));
        Outcome { number, outs: named(&numbers), lent: vec![Buffer::Bytes(dst)] }
    }

    /// Making comes before writing, so bad values are refused before a short destination.
    fn expected(&self) -> Result<Expected<'_>, String> {
        let numbers = self.numbers()?;
        let written = plain::make(&numbers).and_then(|made| plain::write(&made, self.dst.len()));
        let (number, outs, dst) = match written {
            Ok(bytes) => (0, named(&numbers), Cow::Owned([&bytes, &self.dst[BYTES..]].concat())),
            Err(number) => (number, named(&[0; 8]), Cow::Borrowed(self.dst.as_slice())),
        };
        Ok(Expected { number, outs, lent: vec![Left::Bytes(dst)] })
    }

    fn safe(&self, _: &Expected<'_>) -> Result<(), String> {
        Ok(())
    }

    fn places(&self) -> Places {
        let beside = (self.dst.len() > BYTES).then_some((0, BYTES));
        Places { written: Some((0, BYTES - 1)), beside, source: None }
    }

    fn corners(&self) -> Vec<Corner> {
        let counts = self.numbers().map(|numbers| edge::of_counts(&numbers)).unwrap_or_default();
        [corner::picture(self.reading.s.width, self.reading.s.height), counts].concat()
    }

    fn smaller(&self) -> Vec<Self> {
        let mut list = Vec::new();
        if self.geometry == self.reading.s {
            for reading in simpler(&self.reading) {
                list.push(Self { geometry: reading.s, reading, ..self.clone() });
            }
        }
        list.extend((self.dst.len() > BYTES).then(|| Self { dst: self.dst[..BYTES].to_vec(), ..self.clone() }));
        list
    }

    fn tell(&self) -> String {
        let numbers = self.numbers().unwrap_or_default();
        format!("{}\n{}, destination {}", self.reading.tell(), told(&numbers), listed(&self.dst))
    }
}

/// Returns settings with which a small picture has open and skipped tiles, and dark and light pixels.
fn settings(rng: &mut Rng, width: usize, height: usize) -> ReadingConfig {
    let mut config = ReadingConfig::default();
    config.division.structuring_element = rng.pick(&[3, 5, 9, 31]);
    config.opening_kernel = rng.pick(&[3, 3, 5]);
    (config.grid.tile_width, config.grid.tile_height) = (rng.within(1, width), rng.within(1, height));
    config.grid.neighborhood_radius = rng.below(2);
    config.grid.contrast_floor = rng.pick(&[0, 12, 12, 40, 100]);
    config.sauvola.radius = rng.within(1, 9);
    config
}

/// Returns sides that are not the picture's, which with some luck have as many pixels.
fn another(rng: &mut Rng, g: Geometry) -> Geometry {
    let Geometry { width, height, .. } = g;
    let (width, height) = match rng.below(7) {
        0 => (height, width),
        1 => (width + 1, height),
        2 => (width, height - 1),
        3 => (width * height, 1),
        4 => (width + (1 << 16), height),
        5 => (0, height),
        _ => (width, height + (1 << 32)),
    };
    Geometry { width, height, ..g }
}

pub fn random(run: &mut Run, rng: &mut Rng) -> Checked {
    let (width, height) = (rng.within(1, 24), rng.within(1, 24));
    let config = settings(rng, width, height);
    let (mut src, dst) = (picture(rng, width, height), good(rng, width, height));
    if rng.one_in(2) {
        let from = rng.below(height) * src.1.stride;
        src.0[from..].fill(90);
    }
    let len = match rng.below(10) {
        0 => rng.below(BYTES),
        1..=3 => BYTES + rng.below(20),
        _ => BYTES,
    };
    let mut case = Kept::new(Reading::exact(config, src, dst, rng.next()), rng.next() as u32, len);
    if rng.one_in(5) {
        case.geometry = another(rng, case.geometry);
    }
    run.case(&case)
}

/// Runs all small pictures of two levels, pictures judged alike everywhere, and long pictures that are flat from the
/// middle on.
pub fn fixed(run: &mut Run, plan: &Plan) -> Checked {
    let mut config = ReadingConfig::default();
    config.division.structuring_element = 3;
    (config.grid.tile_width, config.grid.tile_height, config.grid.neighborhood_radius) = (2, 1, 0);
    levels::all(plan.two_levels.min(8), &[0, 200], |src, w, h, seed| {
        run.case(&Kept::new(Reading::packed(config, src, w, h, seed), seed as u32, BYTES))
    })?;
    for (level, contrast_floor) in [(0, 0), (200, 0), (200, 12)] {
        config.grid.contrast_floor = contrast_floor;
        run.case(&Kept::new(Reading::packed(config, vec![level; 12], 4, 3, 8), 7, BYTES))?;
    }
    for (width, height) in [(1, 1), (4096, 1), (1, 4096), (40, 30)] {
        let mut src = u8::noise(width * height, 9);
        src[width * height / 2..].fill(200);
        run.case(&Kept::new(Reading::packed(config, src, width, height, 10), u32::MAX, BYTES + 3))?;
    }
    if plan.large {
        let (src, g) = largest(11);
        run.case(&Kept::new(Reading::packed(config, src, g.width, g.height, 12), 13, BYTES))?;
    }
    Ok(())
}
