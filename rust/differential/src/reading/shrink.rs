//! Makes simpler readings, for the search for the smallest input that still differs.

use super::chain::Reading;
use crate::document;
use imgproc::grid::{TileThresholdConfig, TileThresholdMethod};
use imgproc::reading::ReadingConfig;
use imgproc::Geometry;

pub fn smaller(case: &Reading) -> Vec<Reading> {
    let mut list = Vec::new();
    if document::layout(case.src.len(), case.s) == 0 && case.method <= 1 {
        list.extend(cut(case));
        list.extend(darker(case));
    }
    list.extend(simpler(case.config).into_iter().map(|config| Reading { config, ..case.clone() }));
    list
}

/// Returns readings of packed parts of the picture.
fn cut(case: &Reading) -> Vec<Reading> {
    let Geometry { width, height, stride } = case.s;
    let config = with_method(case);
    let mut list = Vec::new();
    for (x, y, w, h) in [
        (0, 0, width / 2, height),
        (0, 0, width, height / 2),
        (0, 0, width - 1, height),
        (0, 0, width, height - 1),
        (1, 0, width - 1, height),
        (0, 1, width, height - 1),
    ] {
        if w > 0 && h > 0 && config.grid.tile_width > 0 && config.grid.tile_height > 0 {
            let rows = (y..y + h).flat_map(|row| case.src[row * stride + x..][..w].iter().copied());
            list.push(Reading::packed(config, rows.collect(), w, h, case.seed));
        }
    }
    list
}

/// Returns readings of a small picture with one pixel darker.
fn darker(case: &Reading) -> Vec<Reading> {
    let Geometry { width, height, stride } = case.s;
    let mut list = Vec::new();
    if width * height <= 64 {
        for i in (0..width * height).map(|i| i / width * stride + i % width).filter(|&i| case.src[i] != 0) {
            for value in [0, case.src[i] / 2] {
                let mut next = case.clone();
                next.src[i] = value;
                list.push(next);
            }
        }
    }
    list
}

/// Returns settings with one of them simpler.
fn simpler(c: ReadingConfig) -> Vec<ReadingConfig> {
    let mut list = vec![c; 5];
    list[0].division.structuring_element = 3.min(c.division.structuring_element);
    list[1].opening_kernel = 3.min(c.opening_kernel);
    list[2].grid.neighborhood_radius /= 2;
    list[3].grid.contrast_floor /= 2;
    list[4].sauvola.radius = c.sauvola.radius.div_ceil(2);
    // Compares them as text, since a NaN among the settings equals nothing.
    list.retain(|next| format!("{next:?}") != format!("{c:?}"));
    list
}

/// Returns the settings with the method that the case has beside them.
fn with_method(case: &Reading) -> ReadingConfig {
    let method = match case.method {
        0 => TileThresholdMethod::Midrange,
        _ => TileThresholdMethod::Sauvola { k: case.k, dynamic_range: case.dynamic_range },
    };
    ReadingConfig { grid: TileThresholdConfig { method, ..case.config.grid }, ..case.config }
}
