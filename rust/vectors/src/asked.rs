//! Gives the answer of an accepted call, by the call's number. For the calls on pictures, for queries, and for tiles
//! that are skipped by hand a plain computation here gives it, for records the one in records/plain.rs, for the others
//! the published Rust. The Rust counts neither comparisons nor open tiles: walk.rs and open.rs do.

use crate::chain::{self, Settings};
use crate::list::{Answer, Written};
use crate::open;
use crate::picture::{Destination, Picture};
use crate::records::plain;
use crate::walk::comparisons;
use qr_lab_imgproc::illumination::{background_divide_into, BackgroundDivideConfig, IlluminationWorkspace};
use qr_lab_imgproc::morphology::{
    grayscale_close_into, grayscale_dilate_into, grayscale_erode_into, grayscale_open_into, MorphologyWorkspace,
};
use qr_lab_imgproc::threshold::{
    sauvola_into, SauvolaConfig, ThresholdWorkspace, TileThresholdConfig, TileThresholdGrid, TileThresholdMethod,
};

pub const LAYOUT: u64 = 0;
pub const CHECK_PIXEL: u64 = 1;
pub const CHECK_ROW: u64 = 2;
pub const GET: u64 = 3;
pub const SET: u64 = 4;
pub const ROW: u64 = 5;
pub const ROW_MUT: u64 = 6;
pub const PACK: u64 = 7;
pub const UNPACK: u64 = 8;
pub const ERODE: u64 = 9;
pub const DILATE: u64 = 10;
pub const OPEN: u64 = 11;
pub const CLOSE: u64 = 12;
pub const DIVIDE: u64 = 13;
pub const SAUVOLA: u64 = 14;
pub const BUILD: u64 = 15;
pub const THRESHOLD_AT: u64 = 16;
pub const IS_SKIP: u64 = 17;
pub const ROW_ALL_SKIP: u64 = 18;
pub const READING: u64 = 19;
pub const PROGRAM: u64 = 20;
pub const BLANK: u64 = 21;
pub const CLEAR: u64 = 22;
pub const SAUVOLA_NARROW: u64 = 23;
pub const WRITE_RECORD: u64 = 24;
pub const READ_RECORD: u64 = 25;
pub const MAKE_RECORD: u64 = 26;
pub const KEEP_READING: u64 = 27;

fn division(s: &[u64]) -> BackgroundDivideConfig {
    BackgroundDivideConfig {
        structuring_element: s[0] as usize,
        target_luma: s[1] as u8,
        denominator_floor: s[2] as u8,
    }
}

/// Reads a grid's settings: tile sides, radius, contrast floor, the method with the bit patterns of its floats, the bit
/// pattern of the offset.
fn grid(s: &[u64]) -> TileThresholdConfig {
    let (k, dynamic_range) = (f64::from_bits(s[5]), f64::from_bits(s[6]));
    let sauvola = TileThresholdMethod::Sauvola { k, dynamic_range };
    let threshold_offset = s[7] as u16 as i16;
    // With a larger offset the Rust's sum overflows: document 01's domain ends here.
    assert!(threshold_offset <= 32_512);
    TileThresholdConfig {
        tile_width: s[0] as usize,
        tile_height: s[1] as usize,
        neighborhood_radius: s[2] as usize,
        contrast_floor: s[3] as u8,
        threshold_offset,
        method: if s[4] == 0 { TileThresholdMethod::Midrange } else { sauvola },
    }
}

/// Reads Sauvola's settings. The Rust overflows at the largest radii, so it gets at most 65,536, where its window is
/// the whole picture already.
fn sauvola(s: &[u64]) -> SauvolaConfig {
    SauvolaConfig {
        radius: s[0].min(65_536) as usize,
        k_milli: s[1] as u32,
        dynamic_range: s[2] as u32,
        dark_value: s[3] as u8,
        light_value: s[4] as u8,
    }
}

/// Reads a reading's settings: element, target and floor, the opening's kernel, the grid's eight, Sauvola's five.
pub fn reading(s: &[u64]) -> Settings {
    Settings { division: division(s), opening_kernel: s[3] as usize, grid: grid(&s[4..]), sauvola: sauvola(&s[12..]) }
}

pub fn answer(n: &[u64], from: &[u8], held: Written) -> Answer {
    match n[0] {
        LAYOUT..=UNPACK => on_picture(n, from, held),
        BUILD => built(n, from, held),
        THRESHOLD_AT | IS_SKIP => Answer { values: vec![query(n, from)], left: held },
        ROW_ALL_SKIP => Answer { values: vec![row_query(n, &held.open_tiles)], left: held },
        BLANK | CLEAR => skipped(n, held),
        WRITE_RECORD..=MAKE_RECORD => plain::answer(n, from, held),
        KEEP_READING => kept(n, from, held),
        _ => operator(n, from, held),
    }
}

/// Answers a call on a picture: pixel (x, y) is the byte at y * stride + x, and a plane is the rows one after another.
fn on_picture(n: &[u64], from: &[u8], mut left: Written) -> Answer {
    let [width, height, stride, first, second] = [1, 2, 3, 4, 5].map(|i| n.get(i).map_or(0, |&number| number as usize));
    // With one row the stride does not matter, and may be larger than any memory.
    let stride = if height == 1 { 0 } else { stride };
    let (pixel, row) = (|| second * stride + first, || first * stride..first * stride + width);
    let rows = (0..height).map(|y| (y * width + first, y * stride));
    let (mut values, to) = (vec![], &mut left.to);
    match n[0] {
        GET => values.push(u64::from(from[pixel()])),
        SET => to[pixel()] = n[6] as u8,
        ROW => to[..width].copy_from_slice(&from[row()]),
        ROW_MUT => to[row()].copy_from_slice(&from[..width]),
        PACK => rows.for_each(|(at, y)| to[at..at + width].copy_from_slice(&from[y..y + width])),
        UNPACK => rows.for_each(|(at, y)| to[y..y + width].copy_from_slice(&from[at..at + width])),
        _ => (),
    }
    if n[0] == ROW || n[0] == ROW_MUT {
        values.push(width as u64);
    }
    Answer { values, left }
}

/// Answers a query for a pixel: its tile's byte, or whether the tile is skipped. Every byte but 0 means skipped.
fn query(n: &[u64], buffer: &[u8]) -> u64 {
    let [tile_width, tile_height, tiles_x, x, y] = [3, 4, 5, 7, 8].map(|i| n[i] as usize);
    let byte = buffer[y / tile_height * tiles_x + x / tile_width];
    u64::from(if n[0] == THRESHOLD_AT { byte } else { u8::from(byte != 0) })
}

/// Answers a query for a pixel row: whether the stored number of its tile row is 0.
fn row_query(n: &[u64], open_tiles: &[u16]) -> u64 {
    let [tile_height, y] = [4, 8].map(|i| n[i] as usize);
    u64::from(open_tiles[y / tile_height] == 0)
}

/// Sets the byte of a tile, and counts the open tiles of its tile row by every byte of it.
fn skipped(n: &[u64], mut left: Written) -> Answer {
    let [tiles_x, column, row] = [5, 7, 8].map(|i| n[i] as usize);
    let tiles = &mut left.to[row * tiles_x..][..tiles_x];
    tiles[column] = u8::from(n[0] == BLANK);
    let skips: Vec<bool> = tiles.iter().map(|&byte| byte != 0).collect();
    left.open_tiles[row] = open::tiles(&skips, tiles_x)[0];
    Answer { values: vec![], left }
}

fn picture(n: &[u64], bytes: &[u8]) -> Picture {
    Picture::lent(n[1] as usize, n[2] as usize, n[3] as usize, bytes.to_vec())
}

fn built(n: &[u64], from: &[u8], mut left: Written) -> Answer {
    let grid = TileThresholdGrid::build(picture(n, from).view(), grid(&n[4..])).expect("accepted");
    left.to[..grid.thresholds().len()].copy_from_slice(grid.thresholds());
    left.other.iter_mut().zip(grid.skip_mask()).for_each(|(byte, &skip)| *byte = u8::from(skip));
    open::store(&open::tiles(grid.skip_mask(), grid.tiles_x()), &mut left.open_tiles);
    Answer { values: vec![grid.tiles_x() as u64, grid.tiles_y() as u64], left }
}

fn operator(n: &[u64], from: &[u8], mut left: Written) -> Answer {
    let source = picture(n, from);
    let to = std::mem::take(&mut left.to);
    let mut destination = Destination::lent(n[4] as usize, n[5] as usize, n[6] as usize, to);
    let values = values(n, &source, &mut destination, &mut left.open_tiles);
    left.to = destination.bytes;
    Answer { values, left }
}

/// Makes a reading, and writes its record to the third slice. Four numbers behind its settings are the flask, the pass
/// and the sides of the record. The number with which the record is refused, or 0, is the last value.
fn kept(n: &[u64], from: &[u8], held: Written) -> Answer {
    let Answer { mut values, mut left } = operator(n, from, held);
    let numbers = [&n[24..], &values].concat().try_into().expect("eight numbers");
    values.push(plain::keep(&numbers, &mut left.other));
    Answer { values, left }
}

/// Makes a call from a picture to a destination, and returns the numbers that it gives.
fn values(n: &[u64], source: &Picture, destination: &mut Destination, open_tiles: &mut [u16]) -> Vec<u64> {
    let (width, height, kernel) = (source.width, source.height, n[7] as usize);
    let sweeps = comparisons(width, height, kernel);
    let mut morphology = MorphologyWorkspace::default();
    let (count, made) = match n[0] {
        ERODE => (sweeps, grayscale_erode_into(source.view(), destination.view(), kernel, &mut morphology)),
        DILATE => (sweeps, grayscale_dilate_into(source.view(), destination.view(), kernel, &mut morphology)),
        OPEN => (2 * sweeps, grayscale_open_into(source.view(), destination.view(), kernel, &mut morphology)),
        CLOSE => (2 * sweeps, grayscale_close_into(source.view(), destination.view(), kernel, &mut morphology)),
        DIVIDE => {
            let workspace = &mut IlluminationWorkspace::default();
            // The closing makes two passes. Raising the background to the floor is not counted.
            (2 * sweeps, background_divide_into(source.view(), destination.view(), &division(&n[7..]), workspace))
        }
        // Both calls make what the Rust's makes.
        SAUVOLA | SAUVOLA_NARROW => {
            let workspace = &mut ThresholdWorkspace::default();
            sauvola_into(source.view(), destination.view(), &sauvola(&n[7..]), workspace).expect("accepted");
            return vec![];
        }
        _ => {
            let counts = chain::read(source, destination, &reading(&n[7..]));
            open::store(&counts.open_tiles, open_tiles);
            return vec![counts.dark, counts.light, counts.skipped, counts.comparisons];
        }
    };
    made.expect("accepted");
    vec![count]
}
