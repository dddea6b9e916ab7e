//! Makes all pictures of a few levels, in every shape up to a number of pixels.

use crate::run::Checked;

/// Calls `each` for every picture, packed, with its width, its height and a seed of its own.
pub fn all(pixels: usize, levels: &[u8], mut each: impl FnMut(Vec<u8>, usize, usize, u64) -> Checked) -> Checked {
    for area in 1..=pixels {
        for width in (1..=area).filter(|width| area % width == 0) {
            for number in 0..levels.len().pow(area as u32) {
                let mut rest = number;
                let src = (0..area)
                    .map(|_| {
                        let level = levels[rest % levels.len()];
                        rest /= levels.len();
                        level
                    })
                    .collect();
                each(src, width, area / width, number as u64)?;
            }
        }
    }
    Ok(())
}
