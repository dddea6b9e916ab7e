//! Makes pictures of a column. It is known which of their pixels are liquid.

use crate::rng::Rng;
use imgproc::Geometry;

/// A column that stands in a picture from top to bottom, filled from below.
#[derive(Clone, Copy, Debug)]
pub struct Scene {
    /// The picture's width in pixels.
    pub width: usize,
    /// The picture's height in pixels.
    pub height: usize,
    /// The column's width in pixels, between its walls.
    pub column: usize,
    /// The brightness of the light in the middle of the picture.
    pub light: f64,
    /// The brightness of the empty column and its walls over that of the light beside it.
    pub empty: f64,
    /// The brightness of the liquid over that of the empty column.
    pub liquid: f64,
    /// The filled part of the picture's height.
    pub level: f64,
    /// The standard deviation of the noise, in grey levels.
    pub noise: f64,
    /// The part of the light that is lost from the middle to the corners.
    pub falloff: f64,
    /// The seed of the noise and of the column's place.
    pub seed: u64,
}

impl Scene {
    /// Returns a column in a picture `times` as wide, 4 to 3 but at least 160 pixels high. The column is half full of a
    /// liquid of middling strength, with little noise in nearly even light.
    pub fn new(column: usize, times: usize) -> Self {
        let width = column * times;
        Self {
            width,
            height: (width * 3 / 4).max(160),
            column,
            light: 200.0,
            empty: 0.95,
            liquid: 0.6,
            level: 0.5,
            noise: 2.0,
            falloff: 0.1,
            seed: 1,
        }
    }
}

/// A picture, and which of its pixels are liquid.
pub struct Picture {
    pub geometry: Geometry,
    pub data: Vec<u8>,
    pub liquid: Vec<bool>,
}

impl Scene {
    /// Makes the picture. The column stands up to a twelfth of the width beside the middle, its walls are an eighth of
    /// its width and at least a pixel, and its liquid stands an eighth of its width higher at the walls.
    pub fn picture(&self) -> Picture {
        let mut rng = Rng::new(self.seed);
        let column = self.column as f64;
        let wall = (column / 8.0).max(1.0);
        let shift = (rng.unit() - 0.5) * self.width as f64 / 6.0;
        let left = ((self.width - self.column) as f64 / 2.0 + shift).round();
        let geometry = Geometry::packed(self.width, self.height);
        let mut data = Vec::with_capacity(geometry.area());
        let mut liquid = Vec::with_capacity(geometry.area());
        let middle = (self.width as f64 / 2.0, self.height as f64 / 2.0);
        for y in 0..self.height {
            for x in 0..self.width {
                let (px, py) = (x as f64 + 0.5, y as f64 + 0.5);
                let away = ((px - middle.0).powi(2) + (py - middle.1).powi(2)) / (middle.0.powi(2) + middle.1.powi(2));
                let light = self.light * (1.0 - self.falloff * away);
                // From -1 at the left wall to 1 at the right one.
                let across = (px - left) / column * 2.0 - 1.0;
                let surface = self.height as f64 * (1.0 - self.level) - column / 8.0 * across * across;
                let inside = across.abs() < 1.0;
                let filled = inside && py > surface && self.level > 0.0;
                let within_walls = across.abs() < 1.0 + 2.0 * wall / column;
                let bright = match (filled, within_walls) {
                    (true, _) => light * self.empty * self.liquid,
                    (false, true) => light * self.empty,
                    (false, false) => light,
                };
                data.push((bright + self.noise * rng.normal()).round().clamp(0.0, 255.0) as u8);
                liquid.push(filled);
            }
        }
        Picture { geometry, data, liquid }
    }
}
