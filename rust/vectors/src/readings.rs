//! Makes the list of readings.

use crate::asked::{reading as settings, READING};
use crate::chain::{flattened, open_tiles};
use crate::grids::TILES;
use crate::list::List;
use crate::picture::{noise, Picture};
use crate::stored::{asked, each, EXACT, OPEN_TILES, WALK};

/// The settings of a reading: element target floor, opening kernel, the grid's eight, radius k-milli dynamic-range
/// dark light.
pub type Reading = [u64; 17];

/// Returns document 01's settings with these kernels.
pub fn kernels(element: u64, opening: u64) -> Reading {
    [element, 200, 8, opening, 16, 16, 1, 12, 0, 0, 0, 0, 8, 200, 128, 0, 255]
}

/// Changes some numbers of settings.
pub fn with(mut settings: Reading, changes: &[(usize, u64)]) -> Reading {
    changes.iter().for_each(|&(index, value)| settings[index] = value);
    settings
}

/// Sets tiles without neighbours, a contrast floor and a small window.
pub fn tiled(settings: Reading, tile_width: u64, tile_height: u64, floor: u64) -> Reading {
    with(settings, &[(4, tile_width), (5, tile_height), (6, 0), (7, floor), (12, 2)])
}

/// Returns a light picture with dark stripes in its left half, and one value in the right half.
pub fn half_flat(width: usize, height: usize) -> Vec<u8> {
    (0..width * height)
        .map(|i| match (i % width, i / width) {
            (x, _) if 2 * x >= width => 140,
            (x, y) => (if (x + y / 2) % 4 < 2 { 40 } else { 160 }) + (5 * x + 3 * y) as u8,
        })
        .collect()
}

/// Returns dark runs of five samples and light ones of four, then one value.
fn runs(count: usize) -> Vec<u8> {
    let run = |i: usize| (if i % 9 < 5 { 50 } else { 170 }) + i as u8;
    (0..count).map(|i| if i >= 14 { 180 } else { run(i) }).collect()
}

fn readings(l: &mut List, what: &str, picture: &Picture, stride: usize, tail: usize, settings: &[Reading]) {
    let settings: Vec<&[u64]> = settings.iter().map(|chosen| &chosen[..]).collect();
    each(l, what, READING, picture, stride, tail, &settings);
}

/// Writes readings of a picture that has light, dark and skipped pixels.
fn judgements(l: &mut List) {
    let glass = Picture::new(10, 7, 13, 2, &half_flat(10, 7));
    l.comment("dark, light and skipped; tiles ragged on both sides");
    let chosen = tiled(kernels(5, 3), 3, 2, 12);
    let answer = asked(l, READING, &glass, 12, 3, &chosen);
    assert!(answer.values.iter().all(|&count| count > 0), "{:?}", answer.values);
    assert_ne!(answer.left.open_tiles, open_tiles(&glass, &settings(&chosen)));
    assert_ne!(answer.left.open_tiles, open_tiles(&flattened(&glass, &settings(&chosen)), &settings(&chosen)));
    let others = [tiled(kernels(3, 5), 3, 2, 12), tiled(kernels(7, 3), 4, 5, 12), tiled(kernels(31, 3), 1, 3, 30)];
    readings(l, "element and opening kernel apart, and exchanged", &glass, 12, 3, &others);
    let both = [(7, 7), (255, 0), (1, 2)].map(|(dark, light)| with(chosen, &[(15, dark), (16, light)]));
    readings(l, "one value for dark and light, which the counts still tell apart", &glass, 10, 0, &both);
    let floor = |floor| with(chosen, &[(7, floor)]);
    let floors = [floor(0), floor(1), floor(255), with(chosen, &[(6, 1)])];
    readings(
        l,
        "contrast floors at their ends, and a neighbourhood that no tile stands alone in",
        &glass,
        11,
        0,
        &floors,
    );
    let method = [(8, 1), (9, 0.2f64.to_bits()), (10, 128f64.to_bits())];
    let offset = |offset: i16| with(with(chosen, &method), &[(11, u64::from(offset as u16))]);
    let offsets = [offset(-32_768), offset(0), offset(32_512)];
    readings(l, "the grid's method and offset do not decide", &glass, 10, 1, &offsets);
    let whole = [with(chosen, &[(12, 1)]), with(chosen, &[(12, 65_536)]), with(chosen, &[(13, 1000), (14, 1)])];
    readings(l, "windows from the least to the largest, and thresholds above 255", &glass, 10, 0, &whole);
}

pub const READINGS: &str = "width height stride of both pictures, element target floor opening-kernel,";
pub const WINDOW: &str = "radius k-milli dynamic-range dark light;";

pub fn reading() -> List {
    let head = ["Readings, call 19:", READINGS, TILES, WINDOW, "dark light skipped comparisons."];
    let chain = "The bytes and the first three counts are those of the published Rust, aukilabs/qr-lab at c99d6ca466,";
    let after = "whose calls are made one after the other (rust/vectors/src/chain.rs).";
    let mut list = List::new("reading", &[&head.join(" "), chain, after, WALK, OPEN_TILES, EXACT]);
    let l = &mut list;
    l.comment("document 01's row, and the same with the contrast floor 0");
    let row = Picture::row(&[0, 200]);
    let skipped = asked(l, READING, &row, 2, 0, &kernels(3, 3));
    assert_eq!((skipped.values, skipped.left.to), (vec![0, 0, 2, 24], vec![255, 255]));
    assert_eq!(skipped.left.open_tiles, [0]);
    let dark = asked(l, READING, &row, 2, 0, &with(kernels(3, 3), &[(7, 0)]));
    assert_eq!((dark.values, dark.left.open_tiles), (vec![2, 0, 0, 24], vec![1]));
    readings(l, "the same row with the Rust's element", &row, 2, 0, &[kernels(31, 3)]);
    judgements(l);
    let far = [kernels(u64::MAX, 3), kernels(3, u64::MAX), kernels(9, 5), kernels(13, 3)];
    let small = far.map(|settings| tiled(settings, 4, 4, 12));
    readings(l, "a column", &Picture::new(1, 23, 4, 1, &runs(23)), 3, 1, &small);
    readings(l, "the same as a row", &Picture::new(23, 1, 23, 2, &runs(23)), 25, 2, &small);
    let flat = [kernels(3, 3), tiled(kernels(3, 3), 2, 2, 0)];
    readings(l, "black", &Picture::new(5, 3, 6, 0, &[0; 15]), 5, 0, &flat);
    readings(l, "white", &Picture::new(5, 3, 6, 0, &[255; 15]), 5, 0, &flat);
    let rough = [kernels(31, 3), kernels(5, 3), tiled(kernels(5, 3), 3, 3, 60), tiled(kernels(9, 5), u64::MAX, 2, 12)];
    readings(l, "noise", &Picture::new(9, 8, 11, 0, &noise(72, 41)), 9, 2, &rough);
    list
}
