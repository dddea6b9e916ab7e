//! Makes the lists of tile grids, and of queries to grids that the published Rust built.

use crate::asked::{BUILD, IS_SKIP, ROW_ALL_SKIP, THRESHOLD_AT};
use crate::list::{Answer, Line, List};
use crate::open;
use crate::picture::{noise, Picture};
use crate::stored::{EXACT, OPEN_TILES, RUST};
use qr_lab_imgproc::threshold::{TileThresholdConfig, TileThresholdGrid};

/// The settings of a grid: tile sides, radius, contrast floor, method, and k, range and offset as bit patterns.
type Tiles = [u64; 8];

fn tiles(tile_width: u64, tile_height: u64, radius: u64) -> Tiles {
    [tile_width, tile_height, radius, 12, 0, 0, 0, 0]
}

fn with_sauvola(mut tiles: Tiles, k: f64, range: f64) -> Tiles {
    (tiles[4], tiles[5], tiles[6]) = (1, k.to_bits(), range.to_bits());
    tiles
}

fn with_offset(mut tiles: Tiles, offset: i16) -> Tiles {
    tiles[7] = u64::from(offset as u16);
    tiles
}

/// Writes a build. The buffers have `tail` places more than there are tiles, or tile rows.
fn build(l: &mut List, picture: &Picture, tail: u64, tiles: Tiles) -> Answer {
    let [width, height, stride] = [picture.width, picture.height, picture.stride].map(|side| side as u64);
    let rows = height.div_ceil(tiles[1]);
    let count = width.div_ceil(tiles[0]) * rows;
    l.accepted(&Line {
        numbers: [&[BUILD, width, height, stride], &tiles[..]].concat(),
        lengths: [picture.bytes.len() as u64, count + tail, count + tail, 0, 5 * count, rows + tail, 0],
        from: picture.bytes.clone(),
        ..Line::default()
    })
}

fn midranges(l: &mut List, page: &Picture) {
    l.comment("Midrange: tiles wider than high and higher than wide, ragged last tiles, neighbourhoods of 0, 1 and 2");
    for radius in [0, 1, 2] {
        build(l, page, 3, tiles(3, 2, radius));
        build(l, page, 0, tiles(2, 4, radius));
    }
    l.comment("Midrange: one tile for each pixel, one for all, the largest sides and radius");
    build(l, page, 0, tiles(1, 1, 0));
    build(l, page, 1, tiles(1, 1, 1));
    build(l, page, 2, tiles(16, 16, 1));
    build(l, page, 0, tiles(u64::MAX, 2, u64::MAX));
    l.comment("Midrange: offsets to both ends");
    for offset in [-32_768, -200, -1, 1, 200, 255, 32_512] {
        build(l, page, 0, with_offset(tiles(4, 3, 0), offset));
    }
    l.comment("Midrange: contrast just under the floor, at it, and floors of 0 and 255");
    let steps = Picture::new(6, 2, 7, 1, &[10, 21, 10, 22, 0, 255, 10, 10, 10, 10, 0, 0]);
    for floor in [12, 11, 0, 255] {
        build(l, &steps, 1, [2, 2, 0, floor, 0, 0, 0, 0]);
    }
}

/// Writes builds in which the tile rows, and the tile columns, have different numbers of open tiles.
fn unlike_rows(l: &mut List) {
    l.comment("rows with different numbers of open tiles, more tiles in a row than rows and fewer; tiles of one pixel");
    let slope = |x: usize, y: usize| if 2 * x < 3 * y { 40 * (x % 3) as u8 } else { 100 };
    let page = |width: usize, height: usize| {
        let pixels: Vec<u8> = (0..width * height).map(|i| slope(i % width, i / width)).collect();
        Picture::new(width, height, width + 1, 0, &pixels)
    };
    for (width, height, tile_width, tile_height, open_tiles) in
        [(9, 6, 2, 2, vec![1, 3, 4]), (5, 9, 2, 2, vec![1, 3, 2, 2, 2]), (8, 4, 4, 1, vec![0, 1, 1, 2])]
    {
        let left = build(l, &page(width, height), 2, tiles(tile_width, tile_height, 0)).left;
        assert_eq!(left.open_tiles[..open_tiles.len()], open_tiles);
    }
    build(l, &page(6, 5), 1, tiles(1, 1, 1));
    build(l, &page(7, 6), 1, with_sauvola(tiles(3, 1, 0), 0.2, 128.0));
}

fn sauvolas(l: &mut List, page: &Picture) {
    l.comment("Sauvola: the same tiles");
    for radius in [0, 1, 2] {
        build(l, page, 3, with_sauvola(tiles(3, 2, radius), 0.2, 128.0));
        build(l, page, 0, with_sauvola(tiles(2, 4, radius), 0.5, 100.0));
    }
    build(l, page, 0, with_sauvola(tiles(16, 16, 1), 0.34, 127.5));
    l.comment("Sauvola: settings at their limits, and values below 0 and above 255");
    let settings = [
        (0.0, 128.0),
        (-0.0, 128.0),
        (-0.3, 64.0),
        (3.5, 1.0),
        (-1000.0, 128.0),
        (1000.0, 0.25),
        (f64::MAX, 1.0),
        (-f64::MAX, 1.0),
        (1.0, f64::MAX),
        (0.2, f64::from_bits(1)),
        (f64::from_bits(1), f64::MIN_POSITIVE),
    ];
    for (k, range) in settings {
        build(l, page, 0, with_sauvola(tiles(4, 3, 1), k, range));
    }
    l.comment("Sauvola: means that end in one half are rounded up, not to even");
    let halves = Picture::row(&[0, 1, 2, 3, 253, 254, 254, 255]);
    build(l, &halves, 0, with_sauvola(tiles(2, 1, 0), 0.0, 128.0));
    l.comment("Sauvola: offsets to both ends");
    for offset in [-32_768, -1, 32_512] {
        build(l, page, 2, with_offset(with_sauvola(tiles(4, 3, 1), 0.2, 128.0), offset));
    }
}

pub const TILES: &str =
    "tile-width tile-height radius contrast-floor method k range offset, the last three as bit patterns, \
    the method 0 for Midrange and 1 for Sauvola;";

pub fn grid() -> List {
    let head = "Tile grids, call 15: width height stride of the source,";
    let left = "tiles-x tiles-y; thresholds, then skips, then the open tiles of each tile row.";
    let mut list = List::new("grid", &[head, TILES, left, RUST, OPEN_TILES, EXACT]);
    let l = &mut list;
    l.comment("document 01's pictures: 0 255 midrange 127, with offsets; Sauvola of 0 200");
    for (offset, threshold) in [(0, 127), (-200, 0), (200, 255)] {
        let left = build(l, &Picture::row(&[0, 255]), 0, with_offset(tiles(16, 16, 1), offset)).left;
        assert_eq!((left.to, left.other, left.open_tiles), (vec![threshold], vec![0], vec![1]));
    }
    for (k, range, threshold) in [(0.2, 128.0, 96), (0.0, f64::from_bits(1), 0)] {
        assert_eq!(
            build(l, &Picture::row(&[0, 200]), 0, with_sauvola(tiles(16, 16, 1), k, range)).left.to,
            [threshold]
        );
    }
    let page = Picture::new(8, 7, 9, 2, &noise(56, 31));
    midranges(l, &page);
    unlike_rows(l);
    sauvolas(l, &page);
    list
}

pub const QUERY: &str = "width height tile-width tile-height tiles-x tiles-y x y;";

/// Bytes for a skipped tile: any but 0 means skipped.
const SKIPPED: [u8; 4] = [1, 2, 255, 128];

/// Writes the queries for some places of one grid, whose buffers have `tail` places more than there are tiles, or tile
/// rows.
fn ask(l: &mut List, picture: &Picture, tile_width: usize, tile_height: usize, contrast_floor: u8, tail: usize) {
    let config =
        TileThresholdConfig { tile_width, tile_height, contrast_floor, neighborhood_radius: 0, ..Default::default() };
    let grid = TileThresholdGrid::build(picture.view(), config).expect("accepted");
    let byte = |(i, &skip): (usize, &bool)| if skip { SKIPPED[i % SKIPPED.len()] } else { 0 };
    let skips: Vec<u8> = grid.skip_mask().iter().enumerate().map(byte).chain(vec![0; tail]).collect();
    let thresholds = [grid.thresholds(), &vec![7; tail]].concat();
    let open_tiles = [open::tiles(grid.skip_mask(), grid.tiles_x()), vec![0; tail]].concat();
    let (right, bottom) = (picture.width - 1, picture.height - 1);
    for (x, y) in [(0, 0), (right, 0), (0, bottom), (right, bottom), (right / 2, bottom / 2)] {
        for (which, from, open_tiles, answer) in [
            (THRESHOLD_AT, &thresholds[..], &[][..], grid.threshold_at(x, y)),
            (IS_SKIP, &skips, &[], u8::from(grid.is_skip(x, y))),
            (ROW_ALL_SKIP, &[], &open_tiles, u8::from(grid.row_all_skip(y))),
        ] {
            let sides = [picture.width, picture.height, tile_width, tile_height, grid.tiles_x(), grid.tiles_y(), x, y];
            let numbers = [&[which], &sides.map(|side| side as u64)[..]].concat();
            let lengths = [from.len(), 0, 0, 0, 0, open_tiles.len(), 0].map(|length| length as u64);
            let (from, open_tiles) = (from.to_vec(), open_tiles.to_vec());
            let line = Line { numbers, lengths, from, open_tiles, ..Line::default() };
            assert_eq!(l.accepted(&line).values, [u64::from(answer)]);
        }
    }
}

pub fn queries() -> List {
    let head = "Queries to a grid, calls 16 (threshold), 17 (skip) and 18 (a row's skips):";
    let answers = "A threshold, or 1 or 0. The answers are those of the published Rust, aukilabs/qr-lab at c99d6ca466.";
    let lent = "The query for a row is lent the open tiles of each tile row.";
    let mut list = List::new("queries", &[head, QUERY, answers, lent, OPEN_TILES]);
    let l = &mut list;
    let page = Picture::packed(8, 7, &noise(56, 31));
    l.comment("tiles wider than high and higher than wide, ragged last tiles; no, some and all skipped");
    ask(l, &page, 3, 2, 0, 0);
    ask(l, &page, 2, 4, 150, 2);
    ask(l, &page, 3, 3, 255, 1);
    l.comment("one tile for each pixel, one for all");
    ask(l, &Picture::packed(3, 2, &[0, 9, 0, 200, 200, 200]), 1, 1, 1, 0);
    ask(l, &page, 16, usize::MAX, 12, 3);
    l.comment("one tile row skipped and one not");
    ask(l, &Picture::packed(4, 4, &[9, 9, 9, 9, 9, 9, 9, 9, 0, 255, 9, 9, 0, 255, 9, 9]), 2, 2, 12, 0);
    list
}
