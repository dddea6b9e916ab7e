//! Works out Sauvola's rule from document 01's words, pixel by pixel and with no table.

use super::Narrow;
use crate::rng::Rng;
use crate::through::Through;
use imgproc::sauvola::SauvolaConfig;
use imgproc::Geometry;

/// The most pixels of all windows together for which every pixel is judged.
const FEW: usize = 6_000;
/// The number of pixels that are judged in a larger case, beside its corners.
const SOME: usize = 3;

/// Returns the first and the last index within a radius of `at`, of n.
fn reach(at: usize, radius: usize, n: usize) -> (usize, usize) {
    (at.saturating_sub(radius), at.saturating_add(radius).min(n - 1))
}

/// Judges pixel (x, y).
fn judged(config: &SauvolaConfig, src: &[u8], s: Geometry, x: usize, y: usize) -> u8 {
    let ((left, right), (top, bottom)) = (reach(x, config.radius, s.width), reach(y, config.radius, s.height));
    let (mut sum, mut squares, mut count) = (0u64, 0u64, 0u64);
    for row in top..=bottom {
        for &pixel in &src[row * s.stride..][left..=right] {
            sum += u64::from(pixel);
            squares += u64::from(pixel) * u64::from(pixel);
            count += 1;
        }
    }
    let mean = sum / count;
    let variance = squares / count - mean * mean;
    let spread = (0..=255).rev().find(|s| s * s <= variance).expect("0 is one");
    let k = u64::from(config.k_milli);
    let scale = 1000 - k + k * spread / u64::from(config.dynamic_range);
    let threshold = mean * scale / 1000;
    if u64::from(src[y * s.stride + x]) <= threshold {
        config.dark_value
    } else {
        config.light_value
    }
}

/// Compares every pixel of a small case, and some of a large one, with what is expected.
pub fn agrees(config: &SauvolaConfig, case: &Through<Narrow>, painted: &[u8]) -> Result<(), String> {
    let Geometry { width, height, .. } = case.s;
    let side = |n: usize| n.min(config.radius.saturating_mul(2).saturating_add(1));
    let work = (width * height).saturating_mul(side(width) * side(height));
    let places: Vec<(usize, usize)> = if work <= FEW {
        (0..width * height).map(|i| (i % width, i / width)).collect()
    } else {
        let mut rng = Rng::new(case.seed);
        let corners = [(0, 0), (width - 1, 0), (0, height - 1), (width - 1, height - 1), (width / 2, height / 2)];
        corners.into_iter().chain((0..SOME).map(|_| (rng.below(width), rng.below(height)))).collect()
    };
    for (x, y) in places {
        let (want, got) = (judged(config, &case.src, case.s, x, y), painted[y * case.d.stride + x]);
        if want != got {
            return Err(format!("the Rust judges pixel ({x}, {y}) as {got}, the plain rule as {want}"));
        }
    }
    Ok(())
}
