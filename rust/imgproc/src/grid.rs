//! The tile grid: builds thresholds and skips of tiles, answers queries to them, and skips tiles by hand.
//!
//! A tile that is not skipped is open. A grid stores the number of open tiles of each tile row beside the skips.
//!
//! ```
//! use imgproc::grid::{self, Grid, TileThresholdConfig};
//! use imgproc::Geometry;
//!
//! // Three tiles by two, of 16 pixels a side. Only the first tile row has contrast.
//! let geometry = Geometry::packed(48, 32);
//! let mut picture = vec![200; geometry.area()];
//! picture[..16 * 48].iter_mut().step_by(5).for_each(|pixel| *pixel = 80);
//! let config = TileThresholdConfig { neighborhood_radius: 0, ..TileThresholdConfig::default() };
//! let mut workspace = vec![0; grid::workspace_len(48, 32, &config)];
//! let (mut thresholds, mut skips) = ([0; 6], [0; 6]);
//! let mut open_tiles = [0; 2];
//! let sizes = grid::tile_grid_build(
//!     &picture, geometry, &config, &mut workspace, &mut thresholds, &mut skips, &mut open_tiles,
//! )?;
//! assert_eq!(sizes, Grid::of(48, 32, &config));
//! assert_eq!(open_tiles, [3, 0]);
//!
//! // A clamp covers the whole first tile row.
//! for column in 0..sizes.tiles_x {
//!     assert!(!grid::row_all_skip(sizes, &open_tiles, 15)?);
//!     grid::blank_tile(sizes, &mut skips, &mut open_tiles, column, 0)?;
//! }
//! assert!(grid::row_all_skip(sizes, &open_tiles, 15)?);
//! grid::clear_tile(sizes, &mut skips, &mut open_tiles, 1, 0)?;
//! assert_eq!((skips, open_tiles), ([1, 0, 1, 1, 1, 1], [1, 0]));
//! # Ok::<(), imgproc::Refusal>(())
//! ```

use crate::refusal::opened;
use crate::{Geometry, Refusal, SettingError};

/// The method that computes a tile's threshold.
#[derive(Clone, Copy, Debug, PartialEq)]
pub enum TileThresholdMethod {
    /// Halfway between the neighbourhood's minimum and maximum.
    Midrange,
    /// Sauvola's formula over the neighbourhood.
    Sauvola {
        /// Sauvola's k; finite.
        k: f64,
        /// The spread at which the threshold is the mean; finite and above 0.
        dynamic_range: f64,
    },
}

impl TileThresholdMethod {
    /// Returns the method's number, k and range as the exports take them.
    pub(crate) const fn numbers(self) -> (u32, f64, f64) {
        match self {
            Self::Midrange => (0, 0.0, 1.0),
            Self::Sauvola { k, dynamic_range } => (1, k, dynamic_range),
        }
    }
}

/// Settings of [`tile_grid_build`].
#[derive(Clone, Copy, Debug, PartialEq)]
pub struct TileThresholdConfig {
    /// The width of a tile; not 0.
    pub tile_width: usize,
    /// The height of a tile; not 0.
    pub tile_height: usize,
    /// The tiles up to this far away on each axis are a tile's neighbourhood.
    pub neighborhood_radius: usize,
    /// Added to each threshold before it is clipped to a byte.
    pub threshold_offset: i16,
    /// A tile is skipped if its neighbourhood has less contrast than this.
    pub contrast_floor: u8,
    /// The method that computes a tile's threshold.
    pub method: TileThresholdMethod,
}

impl Default for TileThresholdConfig {
    fn default() -> Self {
        Self {
            tile_width: 16,
            tile_height: 16,
            neighborhood_radius: 1,
            threshold_offset: 0,
            contrast_floor: 12,
            method: TileThresholdMethod::Midrange,
        }
    }
}

impl TileThresholdConfig {
    /// Names the first setting that is out of range.
    ///
    /// # Errors
    ///
    /// Checks the tile's width, then its height, then the method's k, then its range.
    pub fn check(&self) -> Result<(), SettingError> {
        if self.tile_width == 0 {
            return Err(SettingError::TileWidth);
        }
        if self.tile_height == 0 {
            return Err(SettingError::TileHeight);
        }
        if let TileThresholdMethod::Sauvola { k, dynamic_range } = self.method {
            if !k.is_finite() {
                return Err(SettingError::MethodK);
            }
            if !dynamic_range.is_finite() || dynamic_range <= 0.0 {
                return Err(SettingError::MethodDynamicRange);
            }
        }
        Ok(())
    }
}

/// The sizes of a grid. Its thresholds and skips are slices beside it, one byte a tile, tile row by tile row. A third
/// slice has the number of open tiles of each tile row.
#[derive(Clone, Copy, Debug, PartialEq, Eq, Hash)]
pub struct Grid {
    /// The picture's width.
    pub width: usize,
    /// The picture's height.
    pub height: usize,
    /// The width of a tile; the last of a row may be narrower.
    pub tile_width: usize,
    /// The height of a tile; the last of a column may be lower.
    pub tile_height: usize,
    /// The number of tiles in a row: width / tile_width, rounded up.
    pub tiles_x: usize,
    /// The number of tile rows: height / tile_height, rounded up.
    pub tiles_y: usize,
}

impl Grid {
    /// Returns the sizes of the grid that a build or a reading lays over a picture; no tiles if a tile side is 0.
    pub const fn of(width: usize, height: usize, config: &TileThresholdConfig) -> Self {
        let TileThresholdConfig { tile_width, tile_height, .. } = *config;
        let (tiles_x, tiles_y) = if tile_width == 0 || tile_height == 0 {
            (0, 0)
        } else {
            (width.div_ceil(tile_width), height.div_ceil(tile_height))
        };
        Self { width, height, tile_width, tile_height, tiles_x, tiles_y }
    }
}

/// The calls as C sees them, with slices for pointers. Each returns the number of the refusal, or 0 if accepted.
#[doc(hidden)]
#[allow(missing_docs)]
pub mod flat {
    use super::{Grid, TileThresholdConfig};
    use crate::ffi::call;
    use crate::Geometry;

    /// `method` is 0 for Midrange and 1 for Sauvola; any other is refused. The method in `config` does not matter.
    #[allow(clippy::too_many_arguments)]
    pub fn tile_grid_build(
        src: &[u8], g: Geometry, config: &TileThresholdConfig, method: u32, k: f64, dynamic_range: f64,
        workspace: &mut [u64], thresholds: &mut [u8], skips: &mut [u8], open_tiles: &mut [u16], tiles_x: &mut usize,
        tiles_y: &mut usize,
    ) -> u32 {
        let TileThresholdConfig { tile_width, tile_height, neighborhood_radius, .. } = *config;
        call!(imgproc_tile_grid_build(
            [src], <g>, tile_width, tile_height, neighborhood_radius, config.threshold_offset, config.contrast_floor,
            method, k, dynamic_range, [mut workspace], [mut thresholds], [mut skips], [mut open_tiles], tiles_x, tiles_y
        ))
    }

    pub fn threshold_at(grid: Grid, thresholds: &[u8], x: usize, y: usize, value: &mut u8) -> u32 {
        call!(imgproc_threshold_at(<grid tiles>, [thresholds], x, y, value))
    }

    pub fn is_skip(grid: Grid, skips: &[u8], x: usize, y: usize, value: &mut u8) -> u32 {
        call!(imgproc_is_skip(<grid tiles>, [skips], x, y, value))
    }

    pub fn row_all_skip(grid: Grid, open_tiles: &[u16], y: usize, value: &mut u8) -> u32 {
        call!(imgproc_row_all_skip(<grid tiles>, [open_tiles], y, value))
    }

    pub fn blank_tile(
        grid: Grid, skips: &mut [u8], open_tiles: &mut [u16], tile_column: usize, tile_row: usize,
    ) -> u32 {
        call!(imgproc_blank_tile(<grid tiles>, [mut skips], [mut open_tiles], tile_column, tile_row))
    }

    pub fn clear_tile(
        grid: Grid, skips: &mut [u8], open_tiles: &mut [u16], tile_column: usize, tile_row: usize,
    ) -> u32 {
        call!(imgproc_clear_tile(<grid tiles>, [mut skips], [mut open_tiles], tile_column, tile_row))
    }
}

/// Fills the first bytes of `thresholds` and `skips`, one a tile, and the first numbers of `open_tiles`, one a tile
/// row, and returns the grid's sizes. The first two need [`tiles`] bytes each, the third [`tile_rows`] numbers, the
/// workspace [`workspace_len`] u64s.
///
/// # Errors
///
/// Layout, 7 if [`TileThresholdConfig::check`] finds a fault, 8 if the workspace is too short, 10 if `thresholds`,
/// `skips` or `open_tiles` is.
pub fn tile_grid_build(
    src: &[u8], geometry: Geometry, config: &TileThresholdConfig, workspace: &mut [u64], thresholds: &mut [u8],
    skips: &mut [u8], open_tiles: &mut [u16],
) -> Result<Grid, Refusal> {
    let (method, k, dynamic_range) = config.method.numbers();
    let (mut tiles_x, mut tiles_y) = (0, 0);
    opened(flat::tile_grid_build(
        src,
        geometry,
        config,
        method,
        k,
        dynamic_range,
        workspace,
        thresholds,
        skips,
        open_tiles,
        &mut tiles_x,
        &mut tiles_y,
    ))?;
    let TileThresholdConfig { tile_width, tile_height, .. } = *config;
    Ok(Grid { width: geometry.width, height: geometry.height, tile_width, tile_height, tiles_x, tiles_y })
}

/// Returns the number of tiles of a picture; 0 if a tile side is 0.
pub const fn tiles(width: usize, height: usize, tile_width: usize, tile_height: usize) -> usize {
    if tile_width == 0 || tile_height == 0 {
        return 0;
    }
    width.div_ceil(tile_width).saturating_mul(height.div_ceil(tile_height))
}

/// Returns the number of tile rows of a picture, which is the length of its counts of open tiles; 0 if the tile height
/// is 0.
pub const fn tile_rows(height: usize, tile_height: usize) -> usize {
    if tile_height == 0 {
        return 0;
    }
    height.div_ceil(tile_height)
}

/// Returns the length of the u64 workspace that a grid needs: five u64s a tile.
pub const fn workspace_len(width: usize, height: usize, config: &TileThresholdConfig) -> usize {
    tiles(width, height, config.tile_width, config.tile_height).saturating_mul(5)
}

/// Returns the threshold of the tile that holds pixel (x, y).
///
/// # Errors
///
/// 7 if a side is not in 1..=[`MAX_SIDE`](crate::MAX_SIDE), a tile side is 0 or a tile count is not the side divided by
/// the tile side, rounded up; 10 if `thresholds` is shorter than the number of tiles; 9 outside the picture.
pub fn threshold_at(grid: Grid, thresholds: &[u8], x: usize, y: usize) -> Result<u8, Refusal> {
    let mut value = 0;
    opened(flat::threshold_at(grid, thresholds, x, y, &mut value))?;
    Ok(value)
}

/// Tells whether the tile that holds pixel (x, y) is skipped: its byte is not 0.
///
/// # Errors
///
/// As [`threshold_at`].
pub fn is_skip(grid: Grid, skips: &[u8], x: usize, y: usize) -> Result<bool, Refusal> {
    let mut value = 0;
    opened(flat::is_skip(grid, skips, x, y, &mut value))?;
    Ok(value != 0)
}

/// Tells whether every tile in the tile row that holds row y is skipped: its number of open tiles is 0.
///
/// # Errors
///
/// As [`threshold_at`], with 10 if `open_tiles` is shorter than the number of tile rows.
pub fn row_all_skip(grid: Grid, open_tiles: &[u16], y: usize) -> Result<bool, Refusal> {
    let mut value = 0;
    opened(flat::row_all_skip(grid, open_tiles, y, &mut value))?;
    Ok(value != 0)
}

/// Skips a tile by hand: sets its skip byte to 1, and counts the open tiles of its tile row afresh. Columns and rows of
/// tiles count from 0.
///
/// # Errors
///
/// 7 as [`threshold_at`]; 10 if `skips` is shorter than the number of tiles, or `open_tiles` than that of tile rows; 9
/// outside the grid.
pub fn blank_tile(
    grid: Grid, skips: &mut [u8], open_tiles: &mut [u16], tile_column: usize, tile_row: usize,
) -> Result<(), Refusal> {
    opened(flat::blank_tile(grid, skips, open_tiles, tile_column, tile_row))
}

/// Takes the skip of a tile away by hand: sets its skip byte to 0, and counts the open tiles of its tile row afresh.
///
/// # Errors
///
/// As [`blank_tile`].
pub fn clear_tile(
    grid: Grid, skips: &mut [u8], open_tiles: &mut [u16], tile_column: usize, tile_row: usize,
) -> Result<(), Refusal> {
    opened(flat::clear_tile(grid, skips, open_tiles, tile_column, tile_row))
}
