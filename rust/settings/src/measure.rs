//! Compares a reading with the pixels that are known to be liquid.

use crate::scene::{Picture, Scene};
use imgproc::reading::{ReadingConfig, ReadingWorkspace};

/// The number of liquid pixels judged dark, and of other pixels judged dark, both divided by the number of liquid
/// pixels.
#[derive(Clone, Copy, Debug)]
pub struct Score {
    pub found: f64,
    pub wrong: f64,
}

impl Score {
    /// The best score, from which `worse` starts.
    pub const BEST: Self = Self { found: 1.0, wrong: 0.0 };

    /// Tells whether at least 99 % were found and at most 1 % are wrong.
    pub fn good(self) -> bool {
        self.found >= 0.99 && self.wrong <= 0.01
    }

    pub fn worse(self, other: Self) -> Self {
        Self { found: self.found.min(other.found), wrong: self.wrong.max(other.wrong) }
    }
}

/// Reads a scene, which has some liquid, and scores the reading.
pub fn measure(scene: &Scene, config: &ReadingConfig) -> Score {
    let picture = scene.picture();
    let (mut liquid, mut found, mut wrong) = (0u32, 0u32, 0u32);
    for (dark, &is_liquid) in judged(&picture, config).into_iter().zip(&picture.liquid) {
        liquid += u32::from(is_liquid);
        found += u32::from(dark && is_liquid);
        wrong += u32::from(dark && !is_liquid);
    }
    let share = |count: u32| f64::from(count) / f64::from(liquid);
    Score { found: share(found), wrong: share(wrong) }
}

/// Returns the number of pixels of a scene that are judged dark.
pub fn dark(scene: &Scene, config: &ReadingConfig) -> usize {
    judged(&scene.picture(), config).into_iter().filter(|&dark| dark).count()
}

/// Tells for each pixel whether it is judged dark.
fn judged(picture: &Picture, config: &ReadingConfig) -> Vec<bool> {
    let geometry = picture.geometry;
    let mut marked = vec![config.sauvola.light_value; geometry.area()];
    let mut workspace = ReadingWorkspace::new(geometry, config).expect("good settings and sides");
    workspace.reading(&picture.data, geometry, &mut marked, geometry).expect("accepted");
    marked.into_iter().map(|value| value == config.sauvola.dark_value).collect()
}
