//! Compares Sauvola's threshold.

use crate::case::Buffer;
use crate::corner::{self, Corner, LARGEST_RADIUS};
use crate::fault;
use crate::guard::Guarded;
use crate::layouts::{sides, EDGES};
use crate::levels;
use crate::rng::{Rng, Word};
use crate::run::{same_defaults, Checked, Plan, Run, Subject};
use crate::through::{Operator, Through};
use imgproc::sauvola::{self as ours, flat, SauvolaConfig};
use imgproc::Geometry;
use qr_lab_image::{Gray8View, Gray8ViewMut};
use qr_lab_imgproc::threshold::{self as theirs, ThresholdWorkspace};
use qr_lab_imgproc::ImgProcResult;

#[derive(Clone, Copy, Debug, PartialEq, Eq)]
pub struct Sauvola(pub SauvolaConfig);

impl Operator for Sauvola {
    type Word = u64;
    const COUNTS: bool = false;

    fn name(&self) -> &'static str {
        "sauvola_into"
    }

    fn room(&self, width: usize, height: usize) -> usize {
        2 * (width + 1) * (height + 1)
    }

    fn flat(&self, src: &[u8], s: Geometry, dst: &mut [u8], d: Geometry, workspace: &mut [u64], _: &mut u64) -> u32 {
        flat::sauvola_into(src, s, dst, d, &self.0, workspace)
    }

    fn safe(
        &self, src: &[u8], s: Geometry, dst: &mut [u8], d: Geometry, workspace: &mut [u64],
    ) -> Result<u64, imgproc::Refusal> {
        ours::sauvola_into(src, s, dst, d, &self.0, workspace).map(|()| 0)
    }

    fn rust(&self, src: Gray8View<'_>, dst: Gray8ViewMut<'_>) -> ImgProcResult<()> {
        let config = theirs::SauvolaConfig {
            // At this radius document 01's clipped window is the whole picture already.
            radius: self.0.radius.min(LARGEST_RADIUS),
            k_milli: self.0.k_milli,
            dynamic_range: self.0.dynamic_range,
            dark_value: self.0.dark_value,
            light_value: self.0.light_value,
        };
        theirs::sauvola_into(src, dst, &config, &mut ThresholdWorkspace::default())
    }

    fn comparisons(&self, _: usize, _: usize) -> Result<u64, String> {
        Ok(0)
    }

    fn corners(&self, _: usize, _: usize) -> Vec<Corner> {
        corner::radius(self.0.radius)
    }

    fn simpler(&self) -> Vec<Self> {
        let c = self.0;
        let mut list = vec![SauvolaConfig::default(), SauvolaConfig { radius: 1, ..c }];
        list.push(SauvolaConfig { radius: c.radius / 2, ..c });
        list.push(SauvolaConfig { k_milli: c.k_milli / 2, ..c });
        list.push(SauvolaConfig { dynamic_range: c.dynamic_range / 2, ..c });
        list.push(SauvolaConfig { dark_value: 0, light_value: 255, ..c });
        // Each step lowers this sum, so that the search ends.
        let weight = |c: &SauvolaConfig| {
            let usual = c.dark_value == 0 && c.light_value == 255;
            c.radius as u128 + c.k_milli as u128 + c.dynamic_range as u128 + u128::from(!usual)
        };
        list.retain(|next| weight(next) < weight(&c));
        list.into_iter().map(Self).collect()
    }

    fn buffer(workspace: Guarded<u64>) -> Buffer {
        Buffer::U64s(workspace)
    }
}

pub fn settings(rng: &mut Rng) -> Sauvola {
    let radius = match rng.below(10) {
        0..=3 => rng.within(1, 9),
        4..=5 => rng.within(1, 70),
        6 => rng.within(4090, 4100),
        7 => rng.within(1, LARGEST_RADIUS),
        8 => LARGEST_RADIUS - rng.below(2),
        _ => rng.pick(&EDGES).max(1),
    };
    let k_milli = match rng.below(8) {
        0 => 0,
        1 => 1000,
        2 => 999,
        3 => 200,
        _ => rng.below(1001) as u32,
    };
    let dynamic_range = match rng.below(8) {
        0..=1 => 128,
        2 => 1,
        3 => rng.within(1, 10) as u32,
        4 => rng.pick(&[u32::MAX, u32::MAX - 1, 1 << 31, 65_536, 255, 127]),
        5 => rng.next() as u32 | 1,
        _ => rng.within(1, 300) as u32,
    };
    let dark_value = rng.pick(&[0, 0, rng.clone().byte()]);
    let light_value = if rng.one_in(5) { dark_value } else { rng.pick(&[255, 255, rng.clone().byte()]) };
    let mut config = SauvolaConfig { radius, k_milli, dynamic_range, dark_value, light_value };
    if rng.one_in(12) {
        match rng.below(4) {
            0 => config.radius = 0,
            1 => config.k_milli = rng.pick(&[1001, 1002, 1 << 31, u32::MAX]),
            2 => config.dynamic_range = 0,
            _ => config = SauvolaConfig { radius: 0, k_milli: 1001, dynamic_range: 0, ..config },
        }
    }
    Sauvola(config)
}

fn random(run: &mut Run, rng: &mut Rng) -> Checked {
    let op = settings(rng);
    let (width, height) = sides(rng, 2 * op.0.radius.min(16) + 1);
    run.case(&Through::random(rng, op, width, height))
}

/// Runs all pictures of a few pixels and levels.
pub fn small<O: Operator + Copy>(run: &mut Run, plan: &Plan, op: impl Fn(SauvolaConfig) -> O) -> Checked {
    let usual = SauvolaConfig::default();
    for radius in [1, 2, LARGEST_RADIUS] {
        for (k_milli, dynamic_range) in [(200, 128), (0, 1), (1000, 1), (1000, 128), (500, u32::MAX)] {
            let op = op(SauvolaConfig { radius, k_milli, dynamic_range, ..usual });
            let pixels = plan.two_levels.min(9);
            levels::all(pixels, &[0, 255], |src, w, h, seed| run.case(&Through::packed(op, src, w, h, seed)))?;
            levels::all(plan.three_levels, &[0, 1, 200], |src, w, h, seed| {
                run.case(&Through::packed(op, src, w, h, seed))
            })?;
        }
    }
    // Runs one pixel of each value, and each value beside the darkest and the lightest.
    for value in 0..=255 {
        for k_milli in [0, 1, 200, 999, 1000] {
            let op = op(SauvolaConfig { k_milli, ..usual });
            run.case(&Through::packed(op, vec![value], 1, 1, 2))?;
            run.case(&Through::packed(op, vec![value, 0], 2, 1, 2))?;
            run.case(&Through::packed(op, vec![255, value], 1, 2, 2))?;
        }
    }
    Ok(())
}

fn fixed(run: &mut Run, plan: &Plan) -> Checked {
    let usual = SauvolaConfig::default();
    let rust = theirs::SauvolaConfig::default();
    same_defaults(
        "sauvola_into",
        (usual.radius, usual.k_milli, usual.dynamic_range, usual.dark_value, usual.light_value),
        (rust.radius, rust.k_milli, rust.dynamic_range, rust.dark_value, rust.light_value),
    )?;
    small(run, plan, Sauvola)?;
    let mut shapes = vec![(4096, 1), (1, 4096), (4096, 3), (640, 480)];
    if plan.large {
        shapes.push((4096, 4096));
    }
    for (width, height) in shapes {
        for radius in [1, 8, 4095, LARGEST_RADIUS] {
            let op = Sauvola(SauvolaConfig { radius, ..usual });
            let src = u8::noise(width * height, radius as u64);
            run.case(&Through::packed(op, src, width, height, 3))?;
            // An all-white picture has the largest sums.
            run.case(&Through::packed(op, vec![255; width * height], width, height, 3))?;
            run.case(&Through::packed(op, vec![0; width * height], width, height, 3))?;
        }
    }
    Ok(())
}

pub const SUBJECTS: &[Subject] = &[Subject {
    name: "sauvola_into",
    refuses: &[1, 2, 3, 4, 5, 7, 8],
    corners: &[corner::PICTURE, corner::RADIUS],
    faults: &[fault::writing(2)],
    round: 60_000,
    random,
    fixed,
}];
