//! Makes settings and pictures for grids.

use super::build::Build;
use crate::corner::{LARGEST_OFFSET, LARGEST_RADIUS};
use crate::layouts::{largest, picture, sides, spoil, EDGES};
use crate::levels;
use crate::patterns;
use crate::rng::{Rng, Word};
use crate::run::{same_defaults, Checked, Plan, Run};
use imgproc::grid::{TileThresholdConfig, TileThresholdMethod};
use imgproc::Geometry;
use qr_lab_imgproc::threshold as theirs;

const KS: [f64; 14] =
    [0.2, 0.5, 1.0, 0.0, -0.0, -0.3, 3.5, 1e-310, f64::MIN_POSITIVE, 1e300, f64::MAX, f64::MIN, -1e-5, 0.34];
const RANGES: [f64; 11] = [128.0, 127.5, 1.0, 0.25, 255.0, 1e9, 5e-324, f64::MIN_POSITIVE, 1e-300, f64::MAX, 100.0];
const REFUSED: [f64; 3] = [f64::NAN, f64::INFINITY, f64::NEG_INFINITY];
/// The methods of the fixed cases.
const METHODS: [TileThresholdMethod; 2] =
    [TileThresholdMethod::Midrange, TileThresholdMethod::Sauvola { k: 0.2, dynamic_range: 128.0 }];

fn any_method(rng: &mut Rng) -> TileThresholdMethod {
    if rng.one_in(3) {
        return TileThresholdMethod::Midrange;
    }
    let k = if rng.one_in(2) { (rng.below(4001) as f64 - 2000.0) / 1000.0 } else { rng.pick(&KS) };
    let dynamic_range = if rng.one_in(2) { rng.within(1, 3000) as f64 / 10.0 } else { rng.pick(&RANGES) };
    TileThresholdMethod::Sauvola { k, dynamic_range }
}

/// Returns settings for a picture of these sides, with few enough tiles that wide neighbourhoods stay cheap.
pub fn settings(rng: &mut Rng, width: usize, height: usize) -> TileThresholdConfig {
    let tile = |rng: &mut Rng, side: usize| match rng.below(8) {
        0 => rng.pick(&EDGES).max(side.div_ceil(12)),
        1 => (side + 1).saturating_sub(rng.below(3)).max(1),
        2 => 16.max(side.div_ceil(12)),
        _ => side.div_ceil(rng.within(1, 12.min(side))),
    };
    TileThresholdConfig {
        tile_width: tile(rng, width),
        tile_height: tile(rng, height),
        neighborhood_radius: match rng.below(6) {
            0 => 0,
            1..=3 => 1,
            4 => rng.within(2, 14),
            _ => rng.pick(&EDGES),
        },
        threshold_offset: match rng.below(5) {
            0..=1 => 0,
            2 => rng.below(600) as i16 - 300,
            3 => rng.next() as i16,
            _ => rng.pick(&[i16::MIN, -255, 255, 32_511, LARGEST_OFFSET, 32_513, i16::MAX]),
        },
        contrast_floor: rng.pick(&[0, 1, 12, 12, 100, 255, rng.clone().byte()]),
        method: any_method(rng),
    }
}

/// Returns settings at every corner and every combination of corners.
pub fn at_corners(usual: TileThresholdConfig, width: usize, height: usize) -> Vec<TileThresholdConfig> {
    let few = (width.div_ceil(3), height.div_ceil(2));
    let sides = [few, (width + 1, height + 1), (usize::MAX, few.1), (few.0, usize::MAX), (usize::MAX, usize::MAX)];
    let mut list = Vec::new();
    for (tile_width, tile_height) in sides {
        for neighborhood_radius in [0, 1, LARGEST_RADIUS] {
            for threshold_offset in [i16::MIN, 0, LARGEST_OFFSET] {
                let sides = TileThresholdConfig { tile_width, tile_height, ..usual };
                list.push(TileThresholdConfig { neighborhood_radius, threshold_offset, ..sides });
            }
        }
    }
    list
}

pub fn random(run: &mut Run, rng: &mut Rng) -> Checked {
    let (width, height) = sides(rng, 16);
    let (src, g) = picture(rng, width, height);
    let config = settings(rng, width, height);
    let mut case = Build::exact(src, g, config, rng.next());
    if rng.one_in(3) {
        case.room += rng.below(20);
        case.thresholds += rng.below(9);
        case.skips += rng.below(9);
        case.open_tiles += rng.below(9);
    }
    patterns::mix(rng, &mut case.k, &mut case.dynamic_range);
    match rng.below(24) {
        0..=1 => spoil(rng, &mut case.src, &mut case.g),
        2 => case.config.tile_width = 0,
        3 => case.config.tile_height = 0,
        4 => case.method = rng.pick(&[2, 3, u32::MAX]),
        5 => case.k = rng.pick(&REFUSED),
        6 => case.dynamic_range = rng.pick(&[REFUSED[0], REFUSED[1], REFUSED[2], 0.0, -0.0, -1.0, -5e-324, f64::MIN]),
        7 => case.room = rng.below(case.room),
        8 => case.room -= 1,
        9 => case.thresholds = rng.below(case.thresholds),
        10 => case.skips = rng.below(case.skips),
        11 => (case.room, case.skips, case.open_tiles) = (rng.below(case.room), 0, 0),
        12 => case.open_tiles = rng.below(case.open_tiles),
        13 => case.open_tiles = case.g.height.div_ceil(case.config.tile_height) - 1,
        _ => {}
    }
    run.case(&case)
}

pub fn fixed(run: &mut Run, plan: &Plan) -> Checked {
    let (usual, rust) = (TileThresholdConfig::default(), theirs::TileThresholdConfig::default());
    same_defaults(
        "tile_grid_build",
        (usual.tile_width, usual.tile_height, usual.neighborhood_radius, usual.threshold_offset, usual.contrast_floor),
        (rust.tile_width, rust.tile_height, rust.neighborhood_radius, rust.threshold_offset, rust.contrast_floor),
    )?;
    let midrange =
        (usual.method == TileThresholdMethod::Midrange, rust.method == theirs::TileThresholdMethod::Midrange);
    same_defaults("tile_grid_build", midrange, (true, true))?;
    for method in METHODS {
        for (tile_width, tile_height, neighborhood_radius) in [(1, 1, 0), (1, 1, 1), (2, 2, 0), (2, 1, 1), (16, 16, 1)]
        {
            let config = TileThresholdConfig { tile_width, tile_height, neighborhood_radius, method, ..usual };
            levels::all(plan.two_levels.min(9), &[0, 12], |src, w, h, seed| {
                run.case(&Build::exact(src, Geometry::packed(w, h), config, seed))
            })?;
        }
    }
    // Runs every pair of samples as minimum and maximum of one tile.
    for low in 0..=255 {
        for high in low..=255 {
            for method in METHODS {
                let config = TileThresholdConfig { method, ..usual };
                run.case(&Build::exact(vec![low, high], Geometry::packed(2, 1), config, 6))?;
            }
        }
    }
    for (width, height) in [(4096, 1), (1, 4096), (640, 480)] {
        for method in METHODS {
            let src = u8::noise(width * height, 7);
            let config = TileThresholdConfig { method, ..usual };
            run.case(&Build::exact(src, Geometry::packed(width, height), config, 8))?;
        }
    }
    of_each_pair(run, usual)?;
    for method in METHODS {
        let usual = TileThresholdConfig { method, ..usual };
        small_at_corners(run, usual)?;
        if plan.large {
            largest_at_corners(run, usual)?;
        }
    }
    Ok(())
}

/// Runs every pair of patterns as k and dynamic_range, over a picture with a spread and over ones without.
fn of_each_pair(run: &mut Run, usual: TileThresholdConfig) -> Checked {
    for (k, dynamic_range) in patterns::pairs() {
        let config = TileThresholdConfig { method: TileThresholdMethod::Sauvola { k, dynamic_range }, ..usual };
        for src in [vec![10, 200, 90, 31], vec![0; 4], vec![255; 4]] {
            run.case(&Build::exact(src, Geometry::packed(2, 2), config, 14))?;
        }
    }
    Ok(())
}

/// Runs every corner of the settings over small pictures: noise, black and white.
fn small_at_corners(run: &mut Run, usual: TileThresholdConfig) -> Checked {
    for (width, height) in [(1, 1), (7, 5), (40, 30)] {
        let g = Geometry::packed(width, height);
        for src in [u8::noise(g.area(), 9), vec![0; g.area()], vec![255; g.area()]] {
            for config in at_corners(usual, width, height) {
                run.case(&Build::exact(src.clone(), g, config, 10))?;
            }
        }
    }
    Ok(())
}

/// Runs the largest picture with usual tiles, and as one tile with the largest sums.
fn largest_at_corners(run: &mut Run, usual: TileThresholdConfig) -> Checked {
    let (src, g) = largest(11);
    run.case(&Build::exact(src, g, usual, 12))?;
    let all = TileThresholdConfig { tile_width: usize::MAX, tile_height: usize::MAX, ..usual };
    for threshold_offset in [i16::MIN, LARGEST_OFFSET] {
        let config = TileThresholdConfig { neighborhood_radius: LARGEST_RADIUS, threshold_offset, ..all };
        run.case(&Build::exact(vec![255; g.area()], g, config, 13))?;
    }
    Ok(())
}
