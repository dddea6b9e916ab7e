//! Makes the list of the calls that skip a tile by hand and take the skip away, with queries for rows after them. No
//! published program has these calls: a plain walk answers them, and here and there a number written by hand.

use crate::asked::{BLANK, CLEAR, ROW_ALL_SKIP};
use crate::list::{Line, List};
use crate::open;
use crate::picture::{noise, Picture};
use qr_lab_imgproc::threshold::{TileThresholdConfig, TileThresholdGrid};

pub const TILE: &str = "width height tile-width tile-height tiles-x tiles-y tile-column tile-row;";

/// A grid's sizes, as a line has them, and its two buffers.
#[derive(Clone)]
struct Tiles {
    sizes: [u64; 6],
    skips: Vec<u8>,
    open_tiles: Vec<u16>,
}

impl Tiles {
    /// Makes the tiles of a picture. Its buffers hold noise, past the tiles and the tile rows too.
    fn of(width: u64, height: u64, tile_width: u64, tile_height: u64, seed: u32) -> Self {
        let [tiles_x, tiles_y] = [width.div_ceil(tile_width), height.div_ceil(tile_height)];
        let open_or_any = |byte: u8| if byte < 128 { 0 } else { byte };
        Self {
            sizes: [width, height, tile_width, tile_height, tiles_x, tiles_y],
            skips: noise((tiles_x * tiles_y) as usize + 2, seed).into_iter().map(open_or_any).collect(),
            open_tiles: noise(tiles_y as usize + 2, seed + 1).into_iter().map(u16::from).collect(),
        }
    }

    fn counts(&self) -> [usize; 2] {
        [self.sizes[4] as usize, self.sizes[5] as usize]
    }

    /// Makes a call on tile (i, j). The query for a row is not lent the skip bytes.
    fn line(&self, which: u64, i: usize, j: usize) -> Line {
        let before = if which == ROW_ALL_SKIP { vec![] } else { self.skips.clone() };
        Line {
            numbers: [&[which], &self.sizes[..], &[i as u64, j as u64]].concat(),
            lengths: [0, before.len() as u64, 0, 0, 0, self.open_tiles.len() as u64, 0],
            before,
            open_tiles: self.open_tiles.clone(),
            ..Line::default()
        }
    }

    /// Writes a call, and keeps what it leaves.
    fn set(&mut self, l: &mut List, which: u64, i: usize, j: usize) {
        let left = l.accepted(&self.line(which, i, j)).left;
        (self.skips, self.open_tiles) = (left.to, left.open_tiles);
    }

    /// Writes both calls, each on what is there now.
    fn both(&self, l: &mut List, i: usize, j: usize) {
        for which in [BLANK, CLEAR] {
            self.clone().set(l, which, i, j);
        }
    }

    /// Writes a query for pixel row y. Its column does not matter.
    fn asked(&self, l: &mut List, y: u64) -> bool {
        l.accepted(&self.line(ROW_ALL_SKIP, 0, y as usize)).values == [1]
    }

    /// Writes the queries for the first and the last pixel row of each tile row, which have to answer as a look at
    /// every tile of it.
    fn looked_at(&self, l: &mut List) {
        let [tiles_x, tiles_y] = self.counts();
        for j in 0..tiles_y {
            let all = (0..tiles_x).all(|i| self.skips[j * tiles_x + i] != 0);
            let first = j as u64 * self.sizes[3];
            let last = self.sizes[1].min(first + self.sizes[3]) - 1;
            assert_eq!(self.asked(l, first), all);
            if last != first {
                assert_eq!(self.asked(l, last), all);
            }
        }
    }
}

/// Writes calls whose buffers afterwards are written by hand.
fn by_hand(l: &mut List) {
    l.comment(
        "3 by 3 tiles with false numbers: tile (1, 2) is blanked, then tile (2, 2) cleared; one place more stays",
    );
    let mut tiles = Tiles {
        sizes: [40, 20, 16, 8, 3, 3],
        skips: vec![0, 9, 0, 1, 1, 1, 0, 0, 255, 7],
        open_tiles: vec![8, 9, 7, 5],
    };
    tiles.set(l, BLANK, 1, 2);
    assert_eq!((&tiles.skips[..], &tiles.open_tiles[..]), (&[0, 9, 0, 1, 1, 1, 0, 1, 255, 7][..], &[8, 9, 1, 5][..]));
    tiles.set(l, CLEAR, 2, 2);
    assert_eq!((&tiles.skips[..], &tiles.open_tiles[..]), (&[0, 9, 0, 1, 1, 1, 0, 1, 0, 7][..], &[8, 9, 2, 5][..]));
    l.comment("the same again: nothing changes");
    tiles.set(l, CLEAR, 2, 2);
    assert_eq!(tiles.open_tiles, [8, 9, 2, 5]);
    l.comment("a tile whose byte is 9 is skipped before the call and after it");
    tiles.set(l, BLANK, 1, 0);
    assert_eq!((tiles.skips[1], &tiles.open_tiles[..]), (1, &[2, 9, 2, 5][..]));
}

/// Writes both calls on every tile.
fn every_tile(l: &mut List) {
    for (what, tiles) in [
        ("every tile of 2 by 3, ragged on both sides", Tiles::of(5, 8, 3, 3, 61)),
        ("of 3 by 2", Tiles::of(8, 5, 3, 3, 62)),
        ("of tiles of one pixel, whose rows are the pixel rows", Tiles::of(2, 3, 1, 1, 63)),
        ("of one column", Tiles::of(1, 4, 2, 1, 64)),
        ("of one row", Tiles::of(4, 1, 1, 2, 65)),
        ("of one tile", Tiles::of(4, 3, u64::MAX, u64::MAX, 66)),
    ] {
        l.comment(what);
        let [tiles_x, tiles_y] = tiles.counts();
        (0..tiles_x * tiles_y).for_each(|t| tiles.both(l, t % tiles_x, t / tiles_x));
    }
}

/// Writes calls on rows in which each byte value stands once.
fn every_byte(l: &mut List) {
    l.comment("skip bytes of every value, in one row and in 16; every byte but 0 is skipped");
    let values = |step: usize| (0..256).map(|i| (i * step + 9) as u8).collect::<Vec<u8>>();
    let mut row = Tiles { sizes: [256, 1, 1, 1, 256, 1], skips: values(1), open_tiles: vec![7] };
    row.set(l, BLANK, 0, 0);
    assert_eq!(row.open_tiles, [1]);
    row.set(l, BLANK, 247, 0);
    assert_eq!(row.open_tiles, [0]);
    row.set(l, CLEAR, 255, 0);
    assert_eq!(row.open_tiles, [1]);
    let square = Tiles { sizes: [32, 46, 2, 3, 16, 16], skips: values(77), open_tiles: vec![300; 16] };
    for (i, j) in [(0, 0), (15, 0), (3, 8), (15, 15)] {
        square.both(l, i, j);
    }
    l.comment("a row of 300 open tiles");
    let mut wide = Tiles { sizes: [300, 2, 1, 2, 300, 1], skips: vec![0; 300], open_tiles: vec![0] };
    wide.set(l, CLEAR, 299, 0);
    assert_eq!(wide.open_tiles, [300]);
    wide.set(l, BLANK, 0, 0);
    assert_eq!(wide.open_tiles, [299]);
}

/// Writes queries over stored numbers that no build and no call gave.
fn stored_numbers(l: &mut List) {
    l.comment("call 18 answers from the stored number alone: 0, 1, tiles-x, more than that, and the largest");
    for tile_height in [1, 2, 3] {
        let open_tiles = vec![0, 1, 3, 4, u16::MAX, 0];
        let tiles = Tiles { sizes: [8, 5 * tile_height, 3, tile_height, 3, 5], skips: vec![], open_tiles };
        for y in 0..5 * tile_height {
            assert_eq!(tiles.asked(l, y), y < tile_height);
        }
    }
}

/// Writes calls one after another on the buffers of the Rust's grid of a picture, with queries between them. Tile row j
/// is blanked and opened again.
fn after_a_build(
    l: &mut List, what: &str, picture: &Picture, tile_width: usize, tile_height: usize, contrast_floor: u8, j: usize,
) {
    let usual = TileThresholdConfig::default();
    let config = TileThresholdConfig { tile_width, tile_height, contrast_floor, neighborhood_radius: 0, ..usual };
    let grid = TileThresholdGrid::build(picture.view(), config).expect("accepted");
    let sizes = [picture.width, picture.height, tile_width, tile_height, grid.tiles_x(), grid.tiles_y()];
    let mut tiles = Tiles {
        sizes: sizes.map(|size| size as u64),
        skips: grid.skip_mask().iter().map(|&skip| u8::from(skip)).collect(),
        open_tiles: open::tiles(grid.skip_mask(), grid.tiles_x()),
    };
    l.comment(what);
    tiles.looked_at(l);
    let last = grid.tiles_x() - 1;
    l.comment("a row is blanked tile by tile, then one of its tiles cleared, and another row's");
    for i in 0..=last {
        tiles.set(l, BLANK, i, j);
    }
    tiles.looked_at(l);
    for (which, i, j) in [(CLEAR, last, j), (CLEAR, 0, 0), (BLANK, last, j), (BLANK, 0, 0)] {
        tiles.set(l, which, i, j);
        tiles.looked_at(l);
    }
}

pub fn list() -> List {
    let head = "Tiles that are skipped by hand, calls 21 (blank) and 22 (clear):";
    let left = "the skip bytes and the open tiles of each tile row, before and after.";
    let query = "Between them queries for a row, call 18, whose last two numbers are x y; 1 or 0.";
    let walk = "A plain walk answers (rust/vectors/src/asked.rs): the published Rust has no such calls.";
    let mut list = List::new("blanking", &[head, TILE, left, query, walk]);
    let l = &mut list;
    by_hand(l);
    every_tile(l);
    every_byte(l);
    stored_numbers(l);
    let page = Picture::packed(8, 7, &noise(56, 31));
    after_a_build(l, "after a build with a row skipped: 3 by 4 tiles", &page, 3, 2, 150, 1);
    after_a_build(l, "after a build with some tiles skipped: 4 by 2 tiles", &page, 2, 4, 200, 1);
    let small = Picture::packed(3, 2, &[0, 9, 0, 200, 200, 200]);
    after_a_build(l, "after a build with every tile skipped: tiles of one pixel", &small, 1, 1, 12, 1);
    list
}
