//! Makes a reading by a chain of the published Rust's own calls: divide, open, build the grid, binarize, apply the
//! skips.

use crate::picture::{Destination, Picture};
use crate::{open, walk};
use qr_lab_imgproc::illumination::{background_divide_into, BackgroundDivideConfig, IlluminationWorkspace};
use qr_lab_imgproc::morphology::{grayscale_open_into, MorphologyWorkspace};
use qr_lab_imgproc::threshold::{
    sauvola_into, SauvolaConfig, ThresholdWorkspace, TileThresholdConfig, TileThresholdGrid,
};

/// The settings of a reading: the Rust's own for each call, and the opening's kernel.
#[derive(Clone, Copy)]
pub struct Settings {
    pub division: BackgroundDivideConfig,
    pub opening_kernel: usize,
    pub grid: TileThresholdConfig,
    pub sauvola: SauvolaConfig,
}

impl Default for Settings {
    fn default() -> Self {
        Self {
            division: BackgroundDivideConfig::default(),
            opening_kernel: 3,
            grid: TileThresholdConfig::default(),
            sauvola: SauvolaConfig::default(),
        }
    }
}

/// The four counts of a reading, and the open tiles of each tile row.
pub struct Counts {
    pub dark: u64,
    pub light: u64,
    pub skipped: u64,
    pub comparisons: u64,
    pub open_tiles: Vec<u16>,
}

/// Returns the lengths of the two workspaces: 9wh + 2t bytes and 2(w + 1)(h + 1) + 5t u64s, t the number of tiles.
pub fn room(width: usize, height: usize, grid: &TileThresholdConfig) -> (usize, usize) {
    let tiles = width.div_ceil(grid.tile_width) * height.div_ceil(grid.tile_height);
    (9 * width * height + 2 * tiles, 2 * (width + 1) * (height + 1) + 5 * tiles)
}

/// Returns the packed picture that a call of the Rust writes.
fn made(width: usize, height: usize, call: impl FnOnce(&mut Destination)) -> Picture {
    let mut destination = Destination::packed(width, height);
    call(&mut destination);
    Picture::packed(width, height, &destination.bytes)
}

/// Returns the grid of a picture.
fn built(picture: &Picture, settings: &Settings) -> TileThresholdGrid {
    TileThresholdGrid::build(picture.view(), settings.grid).expect("accepted")
}

/// Returns the open tiles of each tile row of a picture that is neither flattened nor opened.
pub fn open_tiles(picture: &Picture, settings: &Settings) -> Vec<u16> {
    let grid = built(picture, settings);
    open::tiles(grid.skip_mask(), grid.tiles_x())
}

/// Divides a picture by its background.
pub fn flattened(picture: &Picture, settings: &Settings) -> Picture {
    made(picture.width, picture.height, |to| {
        background_divide_into(picture.view(), to.view(), &settings.division, &mut IlluminationWorkspace::default())
            .expect("accepted")
    })
}

/// Judges each pixel dark, light or skipped, writes the destination, and counts the three.
pub fn read(picture: &Picture, destination: &mut Destination, settings: &Settings) -> Counts {
    let (width, height) = (picture.width, picture.height);
    let flattened = flattened(picture, settings);
    let opened = made(width, height, |to| {
        grayscale_open_into(flattened.view(), to.view(), settings.opening_kernel, &mut MorphologyWorkspace::default())
            .expect("accepted")
    });
    // Uses two different values, so that dark and light can be told apart whatever bytes the settings have.
    let apart = SauvolaConfig { dark_value: 1, light_value: 0, ..settings.sauvola };
    let judged = made(width, height, |to| {
        sauvola_into(opened.view(), to.view(), &apart, &mut ThresholdWorkspace::default()).expect("accepted")
    });
    let grid = built(&opened, settings);
    let closing = 2 * walk::comparisons(width, height, settings.division.structuring_element);
    let comparisons = closing + 2 * walk::comparisons(width, height, settings.opening_kernel);
    let open_tiles = open::tiles(grid.skip_mask(), grid.tiles_x());
    let mut counts = Counts { dark: 0, light: 0, skipped: 0, comparisons, open_tiles };
    for (i, &verdict) in judged.bytes.iter().enumerate() {
        let (x, y) = (i % width, i / width);
        let (count, value) = match (grid.is_skip(x, y), verdict) {
            (true, _) => (&mut counts.skipped, settings.sauvola.light_value),
            (false, 1) => (&mut counts.dark, settings.sauvola.dark_value),
            (false, _) => (&mut counts.light, settings.sauvola.light_value),
        };
        *count += 1;
        destination.bytes[y * destination.stride + x] = value;
    }
    counts
}
