//! The reading: flattens and opens a picture, skips its low-contrast tiles, and judges every other pixel.

use crate::grid::{self, tile_rows, tiles, Grid, TileThresholdConfig};
use crate::illumination::BackgroundDivideConfig;
use crate::refusal::opened;
use crate::sauvola::{self, SauvolaConfig};
use crate::{image, Geometry, Refusal, SettingError};
use std::fmt;

/// Settings of [`reading`].
#[derive(Clone, Copy, Debug, PartialEq)]
pub struct ReadingConfig {
    /// Settings of the division by the background.
    pub division: BackgroundDivideConfig,
    /// Kernel of the opening; odd and at least 3.
    pub opening_kernel: usize,
    /// Settings of the grid, of which a reading uses only the skips.
    pub grid: TileThresholdConfig,
    /// Settings of the threshold, and the bytes that are written.
    pub sauvola: SauvolaConfig,
}

/// The settings of the published Rust. They find a dark column of about 8 pixels; for a wider one see
/// [`ReadingConfig::for_column`].
impl Default for ReadingConfig {
    fn default() -> Self {
        Self {
            division: BackgroundDivideConfig::default(),
            opening_kernel: 3,
            grid: TileThresholdConfig::default(),
            sauvola: SauvolaConfig::default(),
        }
    }
}

impl ReadingConfig {
    /// Returns settings for a column that is this many pixels wide between its walls. A number up to a quarter too
    /// large works as well; one that is too small does not.
    ///
    /// The settings were measured on pictures made by a program, of columns 8 to 320 pixels wide and up to a third of
    /// the picture, with at least 250 pixels of liquid. At least 99 % of the liquid was found, and the other pixels
    /// judged dark were at most 1 % as many as the liquid has, if
    ///
    /// - the liquid is 0.4 to 0.85 times as bright as the empty column, which is 0.93 to 0.95 times as bright as the
    ///   light beside it;
    /// - that light is 160 or more in the middle of the picture, with noise of a standard deviation of at most a
    ///   hundredth of it;
    /// - the light loses no more to the corners than 0.1 in a picture three to five columns wide, 0.12 from six on,
    ///   0.15 from eight and 0.2 from twelve.
    ///
    /// Outside this range dark corners may be taken for liquid, and weak liquid may be lost. docs/SETTINGS.md has the
    /// tables. Nothing of this is proved.
    ///
    /// ```
    /// use imgproc::reading::ReadingConfig;
    ///
    /// let config = ReadingConfig::for_column(40);
    /// assert_eq!(config.division.structuring_element, 81); // two columns, and odd
    /// assert_eq!(config.sauvola.radius, 50); // one and a quarter
    /// assert_eq!(config.grid.neighborhood_radius, 3); // a column, in tiles
    /// assert_eq!((config.sauvola.k_milli, config.sauvola.dynamic_range), (130, 48));
    /// ```
    pub fn for_column(pixels: usize) -> Self {
        // No picture has a wider column, and nothing below wraps.
        let column = pixels.clamp(1, crate::MAX_SIDE);
        let mut config = Self::default();
        config.division.structuring_element = 2 * column + 1;
        config.grid.neighborhood_radius = column.div_ceil(config.grid.tile_width);
        config.sauvola.radius = column + column / 4;
        config.sauvola.k_milli = 130;
        config.sauvola.dynamic_range = 48;
        config
    }

    /// Names the first setting that is out of range, in the order in which a reading checks them.
    ///
    /// # Errors
    ///
    /// Checks the division's settings, the opening's kernel, the grid's settings, then the threshold's.
    ///
    /// ```
    /// use imgproc::reading::ReadingConfig;
    /// use imgproc::SettingError;
    ///
    /// let mut config = ReadingConfig::default();
    /// config.sauvola.radius = 0;
    /// let error = config.check().unwrap_err();
    /// assert_eq!(error, SettingError::Radius);
    /// assert_eq!(error.to_string(), "sauvola.radius is 0");
    /// assert_eq!(error.refusal().number(), 7);
    /// ```
    pub fn check(&self) -> Result<(), SettingError> {
        self.division.check()?;
        if self.opening_kernel < 3 || self.opening_kernel % 2 == 0 {
            return Err(SettingError::OpeningKernel);
        }
        self.grid.check()?;
        self.sauvola.check()
    }
}

/// The counts of a reading. Dark, light and skipped add up to the number of pixels.
#[derive(Clone, Copy, Debug, Default, PartialEq, Eq)]
pub struct ReadingCounts {
    /// The number of pixels judged dark.
    pub dark: u64,
    /// The number of pixels judged light.
    pub light: u64,
    /// The number of pixels in tiles without contrast, which are not judged.
    pub skipped: u64,
    /// The number of comparisons of samples in the closing and the opening.
    pub comparisons: u64,
}

/// The call as C sees it, with slices for pointers. It returns the number of the refusal, or 0 if accepted.
#[doc(hidden)]
#[allow(missing_docs)]
pub mod flat {
    use super::{ReadingConfig, ReadingCounts};
    use crate::ffi::call;
    use crate::Geometry;

    /// `method` is 0 for Midrange and 1 for Sauvola; any other is refused. The method in `config` does not matter.
    #[allow(clippy::too_many_arguments)]
    pub fn reading(
        src: &[u8], s: Geometry, dst: &mut [u8], d: Geometry, config: &ReadingConfig, method: u32, k: f64,
        dynamic_range: f64, bytes: &mut [u8], u64s: &mut [u64], open_tiles: &mut [u16], counts: &mut ReadingCounts,
    ) -> u32 {
        let ReadingConfig { division, opening_kernel, grid, sauvola } = *config;
        call!(imgproc_reading(
            [src], <s>, [mut dst], <d>,
            division.structuring_element, division.target_luma, division.denominator_floor,
            opening_kernel,
            grid.tile_width, grid.tile_height, grid.neighborhood_radius, grid.threshold_offset, grid.contrast_floor,
            method, k, dynamic_range,
            sauvola.radius, sauvola.k_milli, sauvola.dynamic_range, sauvola.dark_value, sauvola.light_value,
            [mut bytes], [mut u64s], [mut open_tiles],
            &mut counts.dark, &mut counts.light, &mut counts.skipped, &mut counts.comparisons
        ))
    }
}

/// Judges every pixel and writes the rows of `dst`: `dark_value` for a dark one, `light_value` for a light or skipped
/// one. Fills the first numbers of `open_tiles`, one a tile row, with the number of tiles that are not skipped. A
/// reading makes its own skips: tiles that were blanked by hand do not enter it. The workspaces need [`bytes_len`]
/// bytes and [`u64s_len`] u64s, `open_tiles` needs [`tile_rows`] numbers; a [`ReadingWorkspace`] owns such slices.
///
/// ```
/// use imgproc::grid::{row_all_skip, tile_rows, Grid};
/// use imgproc::reading::{bytes_len, reading, u64s_len, ReadingConfig};
/// use imgproc::Geometry;
///
/// // A dark column, 4 pixels wide and 20 high, in a light picture of 24 × 30.
/// let geometry = Geometry::packed(24, 30);
/// let mut picture = vec![200; geometry.area()];
/// for y in 10..30 {
///     picture[y * 24 + 10..y * 24 + 14].fill(80);
/// }
/// let config = ReadingConfig::default();
/// let mut marked = vec![0; geometry.area()];
/// let mut bytes = vec![0; bytes_len(24, 30, &config.grid)];
/// let mut u64s = vec![0; u64s_len(24, 30, &config.grid)];
/// let mut open_tiles = vec![0; tile_rows(30, config.grid.tile_height)];
/// let counts =
///     reading(&picture, geometry, &mut marked, geometry, &config, &mut bytes, &mut u64s, &mut open_tiles)?;
/// assert_eq!((counts.dark, counts.light, counts.skipped), (80, 640, 0));
/// assert_eq!(marked[29 * 24 + 10], config.sauvola.dark_value);
/// assert!(!row_all_skip(Grid::of(24, 30, &config.grid), &open_tiles, 29)?);
/// # Ok::<(), imgproc::Refusal>(())
/// ```
///
/// # Errors
///
/// Layout of the source, layout of the destination, 5 if they differ in width or height, then what
/// [`ReadingConfig::check`] finds first (7 for the division, 6 for the opening's kernel, 7 for the grid, 7 for the
/// threshold), then 8 if a workspace is too short, then 10 if `open_tiles` is.
#[allow(clippy::too_many_arguments)]
pub fn reading(
    src: &[u8], src_geometry: Geometry, dst: &mut [u8], dst_geometry: Geometry, config: &ReadingConfig,
    bytes: &mut [u8], u64s: &mut [u64], open_tiles: &mut [u16],
) -> Result<ReadingCounts, Refusal> {
    let (method, k, dynamic_range) = config.grid.method.numbers();
    let mut counts = ReadingCounts::default();
    opened(flat::reading(
        src,
        src_geometry,
        dst,
        dst_geometry,
        config,
        method,
        k,
        dynamic_range,
        bytes,
        u64s,
        open_tiles,
        &mut counts,
    ))?;
    Ok(counts)
}

/// Settings, workspaces long enough to read pictures of one size with them, and the counts of open tiles.
///
/// ```
/// use imgproc::reading::{ReadingConfig, ReadingWorkspace};
/// use imgproc::{Geometry, LumaError, Refusal};
///
/// let geometry = Geometry::packed(24, 30);
/// let mut workspace = ReadingWorkspace::new(geometry, &ReadingConfig::default())?;
/// let picture = vec![200; geometry.area()];
/// let mut marked = vec![0; geometry.area()];
/// let counts = workspace.reading(&picture, geometry, &mut marked, geometry)?;
/// assert_eq!(counts.skipped, 720); // No contrast.
/// assert_eq!(workspace.open_tiles(), [0, 0]);
///
/// let vast = Geometry::packed(usize::MAX, usize::MAX);
/// let refusal = ReadingWorkspace::new(vast, &ReadingConfig::default()).unwrap_err();
/// assert_eq!(refusal, Refusal::Image(LumaError::BufferTooSmall));
/// # Ok::<(), Refusal>(())
/// ```
#[derive(Clone)]
pub struct ReadingWorkspace {
    config: ReadingConfig,
    bytes: Vec<u8>,
    u64s: Vec<u64>,
    open_tiles: Vec<u16>,
    last: Option<Grid>,
}

impl ReadingWorkspace {
    /// Checks the geometry and the settings, then allocates the workspaces. With the default tiles they take about 25
    /// bytes a pixel, some 420 MB at the largest sides.
    ///
    /// # Errors
    ///
    /// 1 and 2 as for a layout, 3 if no slice can be that long, 4; then what [`ReadingConfig::check`] finds first.
    pub fn new(geometry: Geometry, config: &ReadingConfig) -> Result<Self, Refusal> {
        image::validate_layout(usize::MAX, geometry)?;
        config.check()?;
        let Geometry { width, height, .. } = geometry;
        let bytes = vec![0; bytes_len(width, height, &config.grid)];
        let u64s = vec![0; u64s_len(width, height, &config.grid)];
        // Long enough for every height: a higher and narrower picture may fit the workspaces.
        let open_tiles = vec![0; tile_rows(crate::MAX_SIDE, config.grid.tile_height)];
        Ok(Self { config: *config, bytes, u64s, open_tiles, last: None })
    }

    /// Returns the settings.
    pub const fn config(&self) -> &ReadingConfig {
        &self.config
    }

    /// Reads a picture, as [`reading`] does. Strides may differ from each other and from the one that the workspace was
    /// made for.
    ///
    /// # Errors
    ///
    /// As [`reading`]. The settings are known to be good, and 8 means that the picture is larger than the workspace is
    /// made for. 10 never occurs.
    pub fn reading(
        &mut self, src: &[u8], src_geometry: Geometry, dst: &mut [u8], dst_geometry: Geometry,
    ) -> Result<ReadingCounts, Refusal> {
        let Self { config, bytes, u64s, open_tiles, last } = self;
        let counts = reading(src, src_geometry, dst, dst_geometry, config, bytes, u64s, open_tiles)?;
        *last = Some(Grid::of(src_geometry.width, src_geometry.height, &config.grid));
        Ok(counts)
    }

    /// Returns the sizes of the grid of the picture last read, for [`grid::row_all_skip`]. `None` before the first
    /// reading; a refused one changes nothing.
    pub const fn grid(&self) -> Option<Grid> {
        self.last
    }

    /// Returns the number of open tiles of each tile row of the picture last read. Empty before the first reading.
    pub fn open_tiles(&self) -> &[u16] {
        let rows = self.last.map_or(0, |grid| grid.tiles_y);
        &self.open_tiles[..rows]
    }
}

/// Shows the lengths of the workspaces in place of their contents.
impl fmt::Debug for ReadingWorkspace {
    fn fmt(&self, f: &mut fmt::Formatter<'_>) -> fmt::Result {
        let Self { config, bytes, u64s, open_tiles, last } = self;
        f.debug_struct("ReadingWorkspace")
            .field("config", config)
            .field("bytes", &bytes.len())
            .field("u64s", &u64s.len())
            .field("open_tiles", &open_tiles.len())
            .field("last", last)
            .finish()
    }
}

/// Returns the length of the byte workspace that a picture needs. For settings that are refused it means nothing.
pub const fn bytes_len(width: usize, height: usize, grid: &TileThresholdConfig) -> usize {
    let marks = tiles(width, height, grid.tile_width, grid.tile_height).saturating_mul(2);
    Geometry::packed(width, height).area().saturating_mul(9).saturating_add(marks)
}

/// Returns the length of the u64 workspace that a picture needs. For settings that are refused it means nothing.
pub const fn u64s_len(width: usize, height: usize, grid: &TileThresholdConfig) -> usize {
    sauvola::workspace_len(width, height).saturating_add(grid::workspace_len(width, height, grid))
}
