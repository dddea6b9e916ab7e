//! A reading by a chain of the Rust's own calls: division, opening, grid and threshold, one after the other.

use crate::corner::{LARGEST_OFFSET, LARGEST_RADIUS};
use crate::document;
use crate::open;
use crate::plain;
use crate::rng::{Rng, Word};
use crate::rust;
use imgproc::grid::{TileThresholdConfig, TileThresholdMethod};
use imgproc::reading::ReadingConfig;
use imgproc::Geometry;
use qr_lab_imgproc::illumination::{background_divide_into, BackgroundDivideConfig, IlluminationWorkspace};
use qr_lab_imgproc::morphology::{grayscale_open_into, MorphologyWorkspace};
use qr_lab_imgproc::threshold::{self as theirs, sauvola_into, SauvolaConfig, ThresholdWorkspace, TileThresholdGrid};

#[derive(Clone)]
pub struct Reading {
    pub src: Vec<u8>,
    pub s: Geometry,
    pub dst: Vec<u8>,
    pub d: Geometry,
    pub config: ReadingConfig,
    /// The method as C passes it: 0 Midrange, 1 Sauvola, any other refused.
    pub method: u32,
    pub k: f64,
    pub dynamic_range: f64,
    /// The lengths of the two workspaces, and of the count buffer.
    pub bytes: usize,
    pub u64s: usize,
    pub open_tiles: usize,
    pub seed: u64,
}

/// The result of the chain: its counts, the packed rows, and the grid. The flattened picture, for a mistake.
pub struct Chained {
    pub dark: u64,
    pub light: u64,
    pub skipped: u64,
    pub marked: Vec<u8>,
    pub grid: TileThresholdGrid,
    pub flat: Vec<u8>,
}

/// Returns the number of tiles of a picture, by document 01's ceilings; tile sides are not 0.
fn tiles(width: usize, height: usize, grid: &TileThresholdConfig) -> usize {
    width.div_ceil(grid.tile_width) * height.div_ceil(grid.tile_height)
}

/// "bytes under 9wh + 2t, or u64s under 2(w + 1)(h + 1) + 5t"
pub fn room(width: usize, height: usize, grid: &TileThresholdConfig) -> (usize, usize) {
    let t = tiles(width, height, grid);
    (9 * width * height + 2 * t, 2 * (width + 1) * (height + 1) + 5 * t)
}

impl Reading {
    /// Makes a case of packed pictures with exact lengths.
    pub fn packed(config: ReadingConfig, src: Vec<u8>, width: usize, height: usize, seed: u64) -> Self {
        let g = Geometry::packed(width, height);
        let dst = u8::noise(src.len(), !seed);
        Self::exact(config, (src, g), (dst, g), seed)
    }

    /// Makes a case whose workspaces have the exact length for the source.
    pub fn exact(config: ReadingConfig, src: (Vec<u8>, Geometry), dst: (Vec<u8>, Geometry), seed: u64) -> Self {
        let (method, k, dynamic_range) = match config.grid.method {
            TileThresholdMethod::Midrange => (0, f64::NAN, f64::NAN),
            TileThresholdMethod::Sauvola { k, dynamic_range } => (1, k, dynamic_range),
        };
        let (bytes, u64s) = room(src.1.width, src.1.height, &config.grid);
        let open_tiles = src.1.height.div_ceil(config.grid.tile_height);
        let ((src, s), (dst, d)) = (src, dst);
        Self { src, s, dst, d, config, method, k, dynamic_range, bytes, u64s, open_tiles, seed }
    }

    fn division(&self) -> BackgroundDivideConfig {
        let division = self.config.division;
        BackgroundDivideConfig {
            structuring_element: division.structuring_element,
            target_luma: division.target_luma,
            denominator_floor: division.denominator_floor,
        }
    }

    fn grid(&self) -> Result<theirs::TileThresholdConfig, u32> {
        let grid = self.config.grid;
        Ok(theirs::TileThresholdConfig {
            tile_width: grid.tile_width,
            tile_height: grid.tile_height,
            neighborhood_radius: grid.neighborhood_radius,
            // A reading uses only the skips, which do not depend on the offset.
            threshold_offset: grid.threshold_offset.min(LARGEST_OFFSET),
            contrast_floor: grid.contrast_floor,
            method: match self.method {
                0 => theirs::TileThresholdMethod::Midrange,
                1 => theirs::TileThresholdMethod::Sauvola { k: self.k, dynamic_range: self.dynamic_range },
                // The Rust's enum has no other method; the C interface refuses one as a bad setting.
                _ => return Err(7),
            },
        })
    }

    fn sauvola(&self) -> SauvolaConfig {
        let sauvola = self.config.sauvola;
        SauvolaConfig {
            // At this radius the clipped window is the whole picture already.
            radius: sauvola.radius.min(LARGEST_RADIUS),
            k_milli: sauvola.k_milli,
            dynamic_range: sauvola.dynamic_range,
            // Two different values, so that dark and light can be counted whatever bytes the settings have.
            dark_value: 1,
            light_value: 0,
        }
    }

    /// Returns the expected number, or else what the Rust's calls leave. Document 01 puts the layouts and the sizes
    /// first and the workspaces last; the settings between them come in the order of the calls.
    pub fn decided(&self) -> Result<Chained, u32> {
        let src = rust::view(&self.src, self.s)?;
        let mut copy = self.dst.clone();
        rust::view_mut(&mut copy, self.d)?;
        let g = Geometry::packed(self.s.width, self.s.height);
        if (self.s.width, self.s.height) != (self.d.width, self.d.height) {
            return Err(5);
        }
        let mut flat = vec![0; g.area()];
        let division = self.division();
        background_divide_into(src, rust::view_mut(&mut flat, g)?, &division, &mut IlluminationWorkspace::default())
            .map_err(rust::imgproc)?;
        let mut opened = vec![0; g.area()];
        let (from, into) = (rust::view(&flat, g)?, rust::view_mut(&mut opened, g)?);
        grayscale_open_into(from, into, self.config.opening_kernel, &mut MorphologyWorkspace::default())
            .map_err(rust::imgproc)?;
        let opened = rust::view(&opened, g)?;
        let grid = TileThresholdGrid::build(opened, self.grid()?).map_err(rust::imgproc)?;
        let mut darkness = vec![0; g.area()];
        let sauvola = self.sauvola();
        sauvola_into(opened, rust::view_mut(&mut darkness, g)?, &sauvola, &mut ThresholdWorkspace::default())
            .map_err(rust::imgproc)?;
        let (bytes, u64s) = room(g.width, g.height, &self.config.grid);
        if self.bytes < bytes || self.u64s < u64s {
            return Err(document::WORKSPACE_TOO_SMALL);
        }
        if self.open_tiles < grid.tiles_y() {
            return Err(document::GRID_BUFFER_TOO_SMALL);
        }
        let mut chained = Chained { dark: 0, light: 0, skipped: 0, marked: Vec::with_capacity(g.area()), grid, flat };
        let values = self.config.sauvola;
        for y in 0..g.height {
            for x in 0..g.width {
                let (count, value) = if chained.grid.is_skip(x, y) {
                    (&mut chained.skipped, values.light_value)
                } else if darkness[y * g.width + x] == 1 {
                    (&mut chained.dark, values.dark_value)
                } else {
                    (&mut chained.light, values.light_value)
                };
                *count += 1;
                chained.marked.push(value);
            }
        }
        Ok(chained)
    }

    /// Returns the open tiles of each tile row of another packed picture of these sides.
    pub fn open_tiles_of(&self, pixels: &[u8]) -> Result<Vec<u16>, u32> {
        let view = rust::view(pixels, Geometry::packed(self.s.width, self.s.height))?;
        let grid = TileThresholdGrid::build(view, self.grid()?).map_err(rust::imgproc)?;
        Ok(open::of_rows(&grid))
    }

    /// Returns the expected destination: these rows, and every other byte as it was.
    pub fn painted(&self, marked: &[u8]) -> Vec<u8> {
        let mut painted = self.dst.clone();
        for (y, row) in marked.chunks(self.d.width).enumerate() {
            painted[y * self.d.stride..][..self.d.width].copy_from_slice(row);
        }
        painted
    }

    /// Returns the comparisons of two passes with the element and two with the opening's kernel.
    pub fn comparisons(&self) -> Result<u64, String> {
        let (w, h) = (self.s.width, self.s.height);
        let closing = plain::comparisons(w, h, self.config.division.structuring_element, 2)?;
        Ok(closing + plain::comparisons(w, h, self.config.opening_kernel, 2)?)
    }

    pub fn noise(&self) -> [u64; 7] {
        let mut rng = Rng::new(self.seed);
        [(); 7].map(|()| rng.next())
    }
}
