//! Makes the lists of the operators from a source to a destination.

use crate::asked::{CLOSE, DILATE, DIVIDE, ERODE, OPEN, SAUVOLA, SAUVOLA_NARROW};
use crate::list::{Answer, Line, List};
use crate::picture::{noise, Picture};

pub const RUST: &str = "The bytes are those of the published Rust, aukilabs/qr-lab at c99d6ca466.";
pub const WALK: &str = "The comparisons, which it does not count, are a plain walk over the indices (walk.rs).";
pub const EXACT: &str = "The workspaces are as short as they may be.";
pub const OPEN_TILES: &str =
    "The open tiles, which the Rust does not count, are counted from its skips (rust/vectors/src/open.rs).";

/// Returns the lengths of what an operator is lent beside its pictures, by documents 01 and 02: bytes, u64s, a count
/// buffer and u32s.
pub fn room(which: u64, width: u64, height: u64, settings: &[u64]) -> [u64; 4] {
    let (area, table) = (width * height, 2 * (width + 1) * (height + 1));
    match which {
        ERODE..=CLOSE => [6 * area, 0, 0, 0],
        DIVIDE => [7 * area, 0, 0, 0],
        SAUVOLA => [0, table, 0, 0],
        SAUVOLA_NARROW => [0, 0, 0, table],
        _ => {
            let rows = height.div_ceil(settings[5]);
            let tiles = width.div_ceil(settings[4]) * rows;
            [9 * area + 2 * tiles, table + 5 * tiles, rows, 0]
        }
    }
}

/// Makes a call from a picture to a destination of its size, with a stride and a tail. A count buffer has as long a
/// tail.
pub fn line(which: u64, picture: &Picture, stride: usize, tail: usize, settings: &[u64]) -> Line {
    let [width, height, from] = [picture.width, picture.height, picture.stride].map(|side| side as u64);
    let [bytes, u64s, rows, u32s] = room(which, width, height, settings);
    let rows = if rows == 0 { 0 } else { rows + tail as u64 };
    let to = stride * (picture.height - 1) + picture.width + tail;
    Line {
        numbers: [&[which, width, height, from, width, height, stride as u64], settings].concat(),
        lengths: [picture.bytes.len() as u64, to as u64, 0, bytes, u64s, rows, u32s],
        from: picture.bytes.clone(),
        ..Line::default()
    }
}

/// Writes such a call.
pub fn asked(l: &mut List, which: u64, picture: &Picture, stride: usize, tail: usize, settings: &[u64]) -> Answer {
    l.accepted(&line(which, picture, stride, tail, settings))
}

pub type Settings<'a> = &'a [&'a [u64]];

pub fn each(l: &mut List, what: &str, which: u64, picture: &Picture, stride: usize, tail: usize, settings: Settings) {
    l.comment(what);
    for chosen in settings {
        asked(l, which, picture, stride, tail, chosen);
    }
}

/// Writes every call of morphology on one picture.
fn four(l: &mut List, what: &str, picture: &Picture, stride: usize, tail: usize, kernel: u64) {
    l.comment(what);
    for which in [ERODE, DILATE, OPEN, CLOSE] {
        asked(l, which, picture, stride, tail, &[kernel]);
    }
}

/// Returns light pixels with one dark one.
fn spot(width: usize, height: usize, x: usize, y: usize) -> Vec<u8> {
    let mut pixels = vec![200; width * height];
    pixels[y * width + x] = 10;
    pixels
}

/// Returns a picture whose outermost pixels differ from all others, and from each other.
fn frame(width: usize, height: usize) -> Vec<u8> {
    let outer = |x: usize, y: usize| x == 0 || y == 0 || x == width - 1 || y == height - 1;
    (0..width * height).map(|i| if outer(i % width, i / width) { (i * 5 % 256) as u8 } else { 128 }).collect()
}

/// Returns columns of 0 and 255 by turns, two wide.
fn stripes(width: usize, height: usize) -> Vec<u8> {
    (0..width * height).map(|i| if i % width % 4 < 2 { 0 } else { 255 }).collect()
}

/// Returns three equal rows.
fn rows(row: &[u8], stride: usize) -> Picture {
    Picture::new(row.len(), 3, stride, 0, &row.repeat(3))
}

/// Returns three equal columns.
fn columns(column: &[u8], stride: usize) -> Picture {
    let pixels: Vec<u8> = column.iter().flat_map(|&sample| [sample; 3]).collect();
    Picture::new(3, column.len(), stride, 0, &pixels)
}

pub fn morphology() -> List {
    let head =
        "Erosion, dilation, opening and closing, calls 9 to 12: both pictures' sides and strides, kernel; comparisons.";
    let mut list = List::new("morphology", &[head, RUST, WALK, EXACT]);
    let l = &mut list;
    four(l, "document 01's row whose erosion starts with 1", &Picture::row(&[5, 6, 1, 9]), 4, 0, 3);
    four(l, "document 01's row that opens above the source", &Picture::row(&[0, 7, 7, 7]), 4, 0, 3);
    four(l, "one pixel, with a tail, into a wide stride", &Picture::new(1, 1, 1, 2, &[3]), 5, 3, 3);
    four(l, "one pixel, the largest kernel", &Picture::row(&[77]), 1, 0, u64::MAX);
    four(l, "the same four samples as a column, strided", &Picture::new(1, 4, 3, 1, &[5, 6, 1, 9]), 2, 0, 3);
    let extremes = Picture::new(7, 1, 7, 3, &[9, 8, 9, 8, 9, 0, 255]);
    four(l, "a row that ends with its extremes, past a whole block", &extremes, 7, 2, 5);
    four(l, "a column longer than two kernels", &Picture::packed(1, 11, &noise(11, 1)), 1, 0, 5);
    four(l, "a row of three blocks and one sample", &Picture::new(10, 1, 12, 1, &noise(10, 2)), 11, 4, 3);
    four(l, "a frame: all that differs lies on the borders", &Picture::new(5, 4, 6, 0, &frame(5, 4)), 5, 0, 3);
    four(l, "noise, both sides strided", &Picture::new(5, 4, 8, 0, &noise(20, 3)), 7, 0, 3);
    four(l, "noise, taller than wide, two blocks each way", &Picture::new(7, 8, 9, 2, &noise(56, 4)), 7, 3, 5);
    four(l, "a kernel above both sides", &Picture::new(6, 6, 6, 1, &noise(36, 5)), 8, 0, 7);
    four(l, "the largest kernel", &Picture::new(3, 5, 4, 0, &noise(15, 6)), 3, 1, u64::MAX);
    four(l, "one dark pixel near a corner", &Picture::packed(8, 7, &spot(8, 7, 6, 5)), 8, 0, 3);
    four(l, "two columns, a kernel above the width alone", &Picture::new(2, 9, 3, 0, &noise(18, 7)), 4, 1, 5);
    four(l, "upright stripes, two wide", &Picture::new(9, 6, 10, 5, &stripes(9, 6)), 9, 0, 3);
    four(l, "two rows, a kernel above the height alone", &Picture::new(12, 2, 12, 0, &noise(24, 8)), 13, 2, 7);
    let [dark, light] = [[0, 7, 7, 7], [7, 0, 0, 0]];
    four(l, "a row that closes below the source", &Picture::row(&light), 4, 0, 3);
    four(l, "rows that open above the source, near a border in x alone", &rows(&dark, 5), 4, 1, 3);
    four(l, "rows that close below it there", &rows(&light, 4), 6, 0, 3);
    four(l, "columns that open above the source, near a border in y alone", &columns(&dark, 4), 3, 0, 3);
    four(l, "columns that close below it there", &columns(&light, 3), 5, 2, 3);
    let slope = [8, 6, 4, 6, 8, 7, 9, 9, 1, 4, 4, 7, 5, 2, 1, 3, 5, 4, 3, 3];
    four(l, "a slope", &Picture::new(5, 4, 6, 0, &slope), 5, 0, 3);
    let cut = slope.map(|sample| if sample <= 3 { 0 } else { 255 });
    four(l, "and its cut at 3", &Picture::new(5, 4, 5, 1, &cut), 7, 0, 3);
    list
}

pub fn division() -> List {
    // The Rust's own target and floor, and the least and the largest of both.
    let extremes: [&[u64]; 5] = [&[3, 200, 8], &[3, 255, 1], &[3, 0, 1], &[3, 255, 255], &[3, 0, 255]];
    let kernels: [&[u64]; 5] = [&[3, 200, 8], &[5, 200, 8], &[31, 200, 8], &[u64::MAX, 255, 1], &[7, 128, 100]];
    let head = "Background division, call 13: width height stride of both pictures, element target floor; comparisons.";
    let mut list = List::new("division", &[head, RUST, WALK, EXACT]);
    let l = &mut list;
    l.comment("document 01's row and single pixels");
    for (pixels, flattened) in [(&[255, 0, 0, 0][..], &[255, 0, 0, 0][..]), (&[3], &[75]), (&[8], &[200])] {
        assert_eq!(asked(l, DIVIDE, &Picture::row(pixels), pixels.len(), 0, extremes[0]).left.to, flattened);
    }
    each(l, "one black pixel", DIVIDE, &Picture::new(1, 1, 1, 1, &[0]), 3, 2, &extremes);
    each(l, "one white pixel", DIVIDE, &Picture::new(1, 1, 2, 0, &[255]), 1, 0, &extremes[1..]);
    let lights = [255, 1, 0, 2, 250];
    each(l, "light at both borders of a row: saturated", DIVIDE, &Picture::row(&lights), 6, 1, &extremes);
    each(l, "the same as a column", DIVIDE, &Picture::new(1, 5, 3, 0, &lights), 2, 0, &extremes[..3]);
    let floors: [&[u64]; 4] = [&[3, 200, 7], &[3, 200, 8], &[3, 200, 9], &[3, 100, 10]];
    each(l, "around the floor", DIVIDE, &Picture::row(&[6, 7, 8, 9, 10, 7, 8, 8, 9]), 9, 0, &floors);
    each(l, "noise, both sides strided", DIVIDE, &Picture::new(5, 4, 8, 0, &noise(20, 11)), 7, 0, &kernels);
    each(l, "noise, taller than wide", DIVIDE, &Picture::new(6, 9, 7, 3, &noise(54, 12)), 6, 2, &kernels);
    let dark: Vec<u8> = noise(35, 13).iter().map(|v| v / 16).collect();
    each(l, "noise of dark pixels", DIVIDE, &Picture::packed(7, 5, &dark), 8, 0, &extremes);
    list
}

/// Returns light pixels with darker strokes, so that both verdicts occur.
fn strokes(width: usize, height: usize) -> Vec<u8> {
    let light = |x: usize, y: usize| 150 + 7 * x as u8 + 5 * y as u8;
    let stroke = |x: usize, y: usize| light(x, y) - if (x + 2 * y) % 5 == 0 { 90 } else { 0 };
    (0..width * height).map(|i| stroke(i % width, i / width)).collect()
}

pub fn sauvola() -> List {
    let head = "Sauvola, call 14: width height stride of both pictures, radius k-milli dynamic-range dark light.";
    let mut list = List::new("sauvola", &[head, RUST, EXACT]);
    judged(&mut list, SAUVOLA);
    list
}

/// Returns settings with the usual values for dark and light.
pub fn window(radius: u64, k: u64, range: u64) -> Vec<u64> {
    vec![radius, k, range, 0, 255]
}

/// Writes the pictures of Sauvola's calls.
pub fn judged(l: &mut List, which: u64) {
    let usual: &[u64] = &[8, 200, 128, 0, 255];
    l.comment("document 01's pixels, and its row of threshold 95");
    assert_eq!(asked(l, which, &Picture::row(&[0]), 1, 0, usual).left.to, [0]);
    assert_eq!(asked(l, which, &Picture::row(&[1]), 1, 0, usual).left.to, [255]);
    assert_eq!(asked(l, which, &Picture::row(&[0, 200]), 2, 0, usual).left.to, [0, 255]);
    l.comment("around that threshold, in a window of its mean and spread");
    asked(l, which, &Picture::row(&[0, 200, 95, 105]), 4, 0, &window(3, 200, 128));
    asked(l, which, &Picture::row(&[0, 200, 94, 106]), 4, 0, &window(3, 200, 128));
    let mut all = |what: &str, picture: &Picture, stride: usize, tail: usize, settings: &[Vec<u64>]| {
        let settings: Vec<&[u64]> = settings.iter().map(Vec::as_slice).collect();
        each(l, what, which, picture, stride, tail, &settings);
    };
    let nearly = Picture::row(&[255, 255, 255, 255, 254, 255, 255, 255, 255, 255]);
    all("document 01's nine of 255 and one of 254", &nearly, 10, 0, &[window(9, 200, 128)]);
    let page = Picture::new(8, 6, 10, 1, &strokes(8, 6));
    let radii = [1, 2, 3, 5, 8, 4096, 65_536].map(|radius| window(radius, 200, 128));
    all("strokes: windows clipped at every border and corner, then above the sides", &page, 9, 2, &radii);
    let largest = u64::from(u32::MAX);
    let scales = [(0, 128), (1, 128), (999, 128), (1000, 128), (1000, 1), (200, 1), (200, largest), (1000, largest)];
    all("strokes: k and the range at their limits", &page, 8, 0, &scales.map(|(k, range)| window(2, k, range)));
    let values = [(7, 7), (255, 0), (1, 2)].map(|(dark, light)| vec![2, 200, 128, dark, light]);
    all("strokes: one value for both verdicts, and the two exchanged", &page, 8, 3, &values);
    let columns = [window(1, 200, 128), window(2, 500, 60), window(9, 200, 128)];
    all("a column", &Picture::new(1, 9, 4, 2, &noise(9, 21)), 3, 0, &columns);
    let rows = [window(1, 200, 128), window(3, 340, 100), window(20, 200, 128)];
    all("a row", &Picture::new(11, 1, 11, 3, &noise(11, 22)), 12, 1, &rows);
    let flat = [window(1, 200, 128), window(3, 0, 128), window(1, 1000, 1)];
    all("black", &Picture::new(5, 3, 6, 0, &[0; 15]), 5, 0, &flat);
    all("white", &Picture::new(5, 3, 6, 0, &[255; 15]), 5, 0, &flat);
    let spread = [window(1, 1000, 1), window(1, 1000, 127), window(1, 200, 1), window(4, 1000, 64)];
    let board: Vec<u8> = (0..24).map(|i| if (i % 6 + i / 6) % 2 == 0 { 0 } else { 255 }).collect();
    all("black and white by turns: thresholds above 255", &Picture::packed(6, 4, &board), 6, 0, &spread);
    let rough = [usual.to_vec(), window(2, 200, 128), window(3, 500, 30)];
    all("noise", &Picture::new(7, 7, 8, 0, &noise(49, 23)), 7, 1, &rough);
}
