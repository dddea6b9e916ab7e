//! Makes settings and pictures for readings.

use super::chain::{room, Reading};
use crate::corner::{kernels, LARGEST_OFFSET, LARGEST_RADIUS};
use crate::grid;
use crate::illumination;
use crate::layouts::{another_size, good, largest, picture, sides, spoil, EDGES};
use crate::levels;
use crate::patterns;
use crate::rng::{Rng, Word};
use crate::run::{Checked, Plan, Run};
use crate::sauvola;
use imgproc::grid::TileThresholdMethod;
use imgproc::reading::ReadingConfig;
use imgproc::Geometry;

const REFUSED: [f64; 3] = [f64::NAN, f64::INFINITY, f64::NEG_INFINITY];

fn opening(rng: &mut Rng) -> usize {
    match rng.below(12) {
        0..=5 => 3,
        6..=8 => rng.pick(&[5, 7, 9]),
        9..=10 => 2 * rng.within(1, 40) + 1,
        _ => rng.pick(&EDGES).max(2) | 1,
    }
}

/// Makes a setting wrong. Now and then the caller does it twice, so that the order of the refusals shows.
fn wrong(rng: &mut Rng, case: &mut Reading) {
    match rng.below(9) {
        0 => case.config.division.structuring_element = rng.pick(&[0, 1, 2, 4, 30, usize::MAX - 1]),
        1 => case.config.division.denominator_floor = 0,
        2..=3 => case.config.opening_kernel = rng.pick(&[0, 1, 2, 4, 30, usize::MAX - 1]),
        4 => case.config.grid.tile_width = 0,
        5 => case.config.grid.tile_height = 0,
        6 => case.method = rng.pick(&[2, 3, u32::MAX]),
        7 => match rng.below(2) {
            0 => case.k = rng.pick(&REFUSED),
            _ => case.dynamic_range = rng.pick(&[f64::NAN, f64::INFINITY, 0.0, -0.0, -1.0, -5e-324, f64::MIN]),
        },
        _ => match rng.below(3) {
            0 => case.config.sauvola.radius = 0,
            1 => case.config.sauvola.k_milli = rng.pick(&[1001, 1002, 1 << 31, u32::MAX]),
            _ => case.config.sauvola.dynamic_range = 0,
        },
    }
}

/// Gives the columns, or the rows, from some place on one value.
fn flatten(rng: &mut Rng, (data, g): &mut (Vec<u8>, Geometry)) {
    let (from_x, from_y) = if rng.one_in(2) { (rng.below(g.width), 0) } else { (0, rng.below(g.height)) };
    let value = rng.byte();
    for y in from_y..g.height {
        data[y * g.stride..][from_x..g.width].fill(value);
    }
}

pub fn random(run: &mut Run, rng: &mut Rng) -> Checked {
    let division = illumination::settings(rng).0;
    let (width, height) = sides(rng, 16);
    let mut config = ReadingConfig {
        division,
        opening_kernel: opening(rng),
        grid: grid::settings(rng, width, height),
        sauvola: sauvola::settings(rng).0,
    };
    match rng.below(5) {
        0 => config = ReadingConfig { division, ..ReadingConfig::default() },
        1 => config.grid.contrast_floor = 0,
        _ => {}
    }
    // Tile sides of 0 are refused: `wrong` sets them.
    config.grid.tile_width = config.grid.tile_width.max(1);
    config.grid.tile_height = config.grid.tile_height.max(1);
    let (mut src, dst) = (picture(rng, width, height), good(rng, width, height));
    if rng.one_in(2) {
        // Makes the picture flat on one side and the tiles small and without neighbours, so that some are skipped and
        // others are not.
        flatten(rng, &mut src);
        config.grid.tile_width = config.grid.tile_width.min(rng.within(width.div_ceil(12), width));
        config.grid.tile_height = config.grid.tile_height.min(rng.within(height.div_ceil(12), height));
        config.grid.neighborhood_radius = rng.pick(&[0, 0, 1]);
        config.grid.contrast_floor = rng.pick(&[1, 12, 12, 40, 100]);
    }
    let mut case = Reading::exact(config, src, dst, rng.next());
    if rng.one_in(3) {
        case.bytes += rng.below(40);
        case.u64s += rng.below(40);
        case.open_tiles += rng.below(9);
    }
    let (bytes, u64s) = room(width, height, &config.grid);
    match rng.below(24) {
        0 => spoil(rng, &mut case.src, &mut case.s),
        1 => spoil(rng, &mut case.dst, &mut case.d),
        2 => {
            spoil(rng, &mut case.src, &mut case.s);
            spoil(rng, &mut case.dst, &mut case.d);
        }
        3 => (case.dst, case.d) = another_size(rng, width, height),
        4 => case.bytes = bytes - 1,
        5 => case.u64s = u64s - 1,
        6 => case.bytes = rng.below(bytes),
        7 => case.u64s = rng.below(u64s),
        8 => (case.bytes, case.u64s, case.open_tiles) = (rng.below(bytes), rng.below(u64s), 0),
        9 => case.open_tiles = rng.below(case.open_tiles),
        10 => case.open_tiles = height.div_ceil(config.grid.tile_height) - 1,
        _ => {}
    }
    patterns::mix(rng, &mut case.k, &mut case.dynamic_range);
    if rng.one_in(10) {
        wrong(rng, &mut case);
        if rng.one_in(3) {
            wrong(rng, &mut case);
        }
    }
    run.case(&case)
}

pub fn fixed(run: &mut Run, plan: &Plan) -> Checked {
    let mut usual = ReadingConfig::default();
    run.case(&Reading::packed(usual, vec![0, 200], 2, 1, 1))?;
    usual.division.structuring_element = 3;
    let mut unskipped = usual;
    unskipped.grid.contrast_floor = 0;
    let mut small = usual;
    (small.grid.tile_width, small.grid.tile_height, small.grid.neighborhood_radius) = (1, 2, 0);
    small.grid.method = TileThresholdMethod::Sauvola { k: 0.2, dynamic_range: 128.0 };
    for config in [usual, unskipped, small] {
        levels::all(plan.two_levels.min(9), &[0, 200], |src, w, h, seed| {
            run.case(&Reading::packed(config, src, w, h, seed))
        })?;
        levels::all(plan.three_levels, &[7, 100, 200], |src, w, h, seed| {
            run.case(&Reading::packed(config, src, w, h, seed))
        })?;
    }
    let mut shapes = vec![(4096, 1), (1, 4096), (640, 480)];
    if plan.large {
        shapes.push((4096, 4096));
    }
    for (width, height) in shapes {
        let src = u8::noise(width * height, 9);
        run.case(&Reading::packed(ReadingConfig::default(), src.clone(), width, height, 10))?;
        run.case(&Reading::packed(unskipped, src, width, height, 10))?;
    }
    small_at_corners(run, usual)?;
    small_at_corners(run, unskipped)?;
    of_each_pair(run, small)?;
    if plan.large {
        largest_at_corners(run, unskipped)?;
    }
    Ok(())
}

/// Runs every pair of patterns as the grid's k and dynamic_range. They decide only whether the call is refused.
fn of_each_pair(run: &mut Run, mut config: ReadingConfig) -> Checked {
    for (k, dynamic_range) in patterns::pairs() {
        config.grid.method = TileThresholdMethod::Sauvola { k, dynamic_range };
        run.case(&Reading::packed(config, vec![10, 200, 90, 31], 2, 2, 15))?;
    }
    Ok(())
}

/// Runs every corner of the settings over small pictures.
fn small_at_corners(run: &mut Run, usual: ReadingConfig) -> Checked {
    for (width, height) in [(1, 1), (7, 5), (20, 30)] {
        let src = u8::noise(width * height, 11);
        let [above, most] = kernels(width, height);
        for (element, kernel) in [3, above, most].into_iter().flat_map(|k| [(k, 3), (k, above), (k, most)]) {
            for grid in grid::at_corners(usual.grid, width, height) {
                for radius in [1, LARGEST_RADIUS] {
                    let mut config = ReadingConfig { opening_kernel: kernel, grid, ..usual };
                    (config.division.structuring_element, config.sauvola.radius) = (element, radius);
                    run.case(&Reading::packed(config, src.clone(), width, height, 12))?;
                }
            }
        }
    }
    Ok(())
}

/// Runs the largest picture with every setting at its largest, but with the opening's kernel just above the picture.
fn largest_at_corners(run: &mut Run, mut config: ReadingConfig) -> Checked {
    let (src, g) = largest(13);
    [config.opening_kernel, config.division.structuring_element] = kernels(g.width, g.height);
    (config.grid.tile_width, config.grid.tile_height) = (usize::MAX, usize::MAX);
    (config.grid.neighborhood_radius, config.grid.threshold_offset) = (LARGEST_RADIUS, LARGEST_OFFSET);
    config.sauvola.radius = LARGEST_RADIUS;
    run.case(&Reading::packed(config, src, g.width, g.height, 14))
}
