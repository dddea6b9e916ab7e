//! Compares `threshold_at`, `is_skip` and `row_all_skip` with the Rust's grid.

use super::make::{at_corners, settings};
use crate::case::{listed, Buffer, Case, Expected, Left, Outcome, Places};
use crate::corner::{self, Corner, LARGEST_OFFSET};
use crate::document;
use crate::guard::Guarded;
use crate::layouts::{largest, picture, sides, EDGES};
use crate::mistake::{self, Mistake};
use crate::open;
use crate::rng::{Rng, Word};
use crate::run::{Checked, Plan, Run};
use crate::rust;
use imgproc::grid::{self as ours, flat, Grid, TileThresholdConfig, TileThresholdMethod};
use imgproc::{Geometry, Refusal};
use qr_lab_imgproc::threshold as theirs;
use std::borrow::Cow;
use std::rc::Rc;

#[derive(Clone, Copy, PartialEq, Eq, Debug)]
pub enum Call {
    ThresholdAt,
    IsSkip,
    RowAllSkip,
}

#[derive(Clone)]
pub struct Query {
    pub call: Call,
    pub grid: Grid,
    /// What a query for a pixel is lent. Beside a query for a row the skips from which its numbers come, if they do.
    pub tiles: Vec<u8>,
    /// What a query for a row is lent.
    pub open_tiles: Vec<u16>,
    pub x: usize,
    pub y: usize,
    /// The value of the byte to be written before the call.
    pub value: u8,
    /// The grid from which sizes and tiles were taken, if neither was changed since.
    pub rust: Option<Rc<theirs::TileThresholdGrid>>,
}

/// Returns the Rust's grid of a picture with these settings.
pub fn built(src: &[u8], g: Geometry, config: TileThresholdConfig) -> theirs::TileThresholdGrid {
    let method = match config.method {
        TileThresholdMethod::Midrange => theirs::TileThresholdMethod::Midrange,
        TileThresholdMethod::Sauvola { k, dynamic_range } => theirs::TileThresholdMethod::Sauvola { k, dynamic_range },
    };
    let config = theirs::TileThresholdConfig {
        tile_width: config.tile_width,
        tile_height: config.tile_height,
        neighborhood_radius: config.neighborhood_radius,
        threshold_offset: config.threshold_offset.min(LARGEST_OFFSET),
        contrast_floor: config.contrast_floor,
        method,
    };
    let view = rust::view(src, g).expect("the layout is good");
    theirs::TileThresholdGrid::build(view, config).expect("the settings are good")
}

impl Query {
    /// Makes a query for the first pixel of the Rust's grid of a picture. `skipped` gives the byte of each skipped
    /// tile, any but 0.
    fn new(
        call: Call, src: &[u8], g: Geometry, config: TileThresholdConfig, mut skipped: impl FnMut() -> u8,
    ) -> Self {
        let built = built(src, g, config);
        let tiles = match call {
            Call::ThresholdAt => built.thresholds().to_vec(),
            _ => built.skip_mask().iter().map(|&skip| if skip { skipped() } else { 0 }).collect(),
        };
        let grid = Grid {
            width: g.width,
            height: g.height,
            tile_width: config.tile_width,
            tile_height: config.tile_height,
            tiles_x: built.tiles_x(),
            tiles_y: built.tiles_y(),
        };
        let open_tiles = if call == Call::RowAllSkip { open::of_rows(&built) } else { vec![] };
        Self { call, grid, tiles, open_tiles, x: 0, y: 0, value: 0, rust: Some(Rc::new(built)) }
    }

    /// Returns the number or the value by document 01, in its order: sizes 7, buffer 10, place 9.
    fn decided(&self) -> Result<u8, u32> {
        if document::bad_grid(self.grid) {
            return Err(7);
        }
        let Grid { width, height, tile_width, tile_height, tiles_x, tiles_y } = self.grid;
        let of_a_row = self.call == Call::RowAllSkip;
        let short = if of_a_row { self.open_tiles.len() < tiles_y } else { self.tiles.len() < tiles_x * tiles_y };
        if short {
            return Err(document::GRID_BUFFER_TOO_SMALL);
        }
        if (!of_a_row && self.x >= width) || self.y >= height {
            return Err(document::OUTSIDE);
        }
        let (i, j) = (self.x / tile_width, self.y / tile_height);
        Ok(match self.call {
            Call::ThresholdAt => self.tiles[j * tiles_x + i],
            Call::IsSkip => u8::from(self.tiles[j * tiles_x + i] != 0),
            Call::RowAllSkip => u8::from(self.open_tiles[j] == 0),
        })
    }

    /// Looks at every tile of the row, if the skips are there.
    fn looked_at(&self) -> Option<u8> {
        let Grid { tile_height, tiles_x, .. } = self.grid;
        let row = self.tiles.get(self.y / tile_height * tiles_x..)?.get(..tiles_x)?;
        Some(u8::from(row.iter().all(|&byte| byte != 0)))
    }
}

impl Case for Query {
    fn name(&self) -> &'static str {
        match self.call {
            Call::ThresholdAt => "threshold_at",
            Call::IsSkip => "is_skip",
            Call::RowAllSkip => "row_all_skip",
        }
    }

    fn ours(&self) -> Outcome {
        let (tiles, open_tiles) = (Guarded::new(&self.tiles), Guarded::new(&self.open_tiles));
        let mut value = self.value;
        let number = match self.call {
            Call::ThresholdAt => flat::threshold_at(self.grid, &tiles, self.x, self.y, &mut value),
            Call::IsSkip => flat::is_skip(self.grid, &tiles, self.x, self.y, &mut value),
            Call::RowAllSkip => flat::row_all_skip(self.grid, &open_tiles, self.y, &mut value),
        };
        let lent = if self.call == Call::RowAllSkip { Buffer::U16s(open_tiles) } else { Buffer::Bytes(tiles) };
        Outcome { number, outs: vec![("value", u64::from(value))], lent: vec![lent] }
    }

    fn expected(&self) -> Result<Expected<'_>, String> {
        let (number, value) = match self.decided() {
            Ok(value) => (0, value),
            Err(number) => (number, self.value),
        };
        if let (0, Some(grid)) = (number, &self.rust) {
            let asked = match self.call {
                Call::ThresholdAt => grid.threshold_at(self.x, self.y),
                Call::IsSkip => u8::from(grid.is_skip(self.x, self.y)),
                Call::RowAllSkip => u8::from(grid.row_all_skip(self.y)),
            };
            if asked != value {
                return Err(format!("the Rust gives {asked}, document 01 {value}"));
            }
        }
        let mut lent = Left::Bytes(Cow::Borrowed(self.tiles.as_slice()));
        if self.call == Call::RowAllSkip {
            let looked_at = if number == 0 { self.looked_at() } else { None };
            if let Some(looked_at) = looked_at.filter(|&looked_at| looked_at != value) {
                return Err(format!("a look at every tile gives {looked_at}, the stored number {value}"));
            }
            lent = Left::U16s(Cow::Borrowed(self.open_tiles.as_slice()));
        }
        Ok(Expected { number, outs: vec![("value", u64::from(value))], lent: vec![lent] })
    }

    fn safe(&self, expected: &Expected<'_>) -> Result<(), String> {
        let answer = match self.call {
            Call::ThresholdAt => ours::threshold_at(self.grid, &self.tiles, self.x, self.y).map(u64::from),
            Call::IsSkip => ours::is_skip(self.grid, &self.tiles, self.x, self.y).map(u64::from),
            Call::RowAllSkip => ours::row_all_skip(self.grid, &self.open_tiles, self.y).map(u64::from),
        };
        let want = match Refusal::from_number(expected.number) {
            None => Ok(expected.outs[0].1),
            Some(refusal) => Err(refusal),
        };
        if answer != want {
            return Err(format!("the safe call answers {answer:?} where {want:?} is expected"));
        }
        Ok(())
    }

    fn places(&self) -> Places {
        let of_a_row = self.call == Call::RowAllSkip;
        let length = if of_a_row { self.open_tiles.len() } else { self.tiles.len() };
        Places { source: Some((0, length / 2)), ..Places::default() }
    }

    fn mistaken(&self, mistake: Mistake, outcome: &mut Outcome) -> bool {
        mistake::answer(mistake, self.grid, &self.open_tiles, self.y, outcome)
    }

    fn corners(&self) -> Vec<Corner> {
        let Grid { width, height, tile_width, tile_height, .. } = self.grid;
        [corner::picture(width, height), corner::tile(tile_width, tile_height, width, height)].concat()
    }

    fn smaller(&self) -> Vec<Self> {
        let mut list = Vec::new();
        for (x, y) in [(self.x / 2, self.y), (self.x, self.y / 2)] {
            if (x, y) != (self.x, self.y) {
                list.push(Self { x, y, ..self.clone() });
            }
        }
        list
    }

    fn tell(&self) -> String {
        let Self { call, grid, tiles, open_tiles, x, y, .. } = self;
        format!("{call:?} at ({x}, {y}), {grid:?}, tiles {}, open tiles {}", listed(tiles), listed(open_tiles))
    }
}

pub fn random(run: &mut Run, rng: &mut Rng, call: Call) -> Checked {
    let (width, height) = sides(rng, 16);
    let (src, g) = picture(rng, width, height);
    let config = settings(rng, width, height);
    let mut case = Query::new(call, &src, g, config, || rng.byte().max(1));
    case.tiles.extend((0..rng.below(3) * 4).map(|_| rng.byte()));
    if call == Call::RowAllSkip {
        more_numbers(rng, &mut case);
    }
    let place = |rng: &mut Rng, side: usize| match rng.below(10) {
        0 => side,
        1 => side - 1,
        2 if rng.one_in(4) => rng.pick(&EDGES),
        _ => rng.below(side),
    };
    (case.x, case.y) = (place(rng, width), place(rng, height));
    if rng.one_in(5) {
        let asked = case.grid;
        let (grid, tiles, open_tiles) = (&mut case.grid, &mut case.tiles, &mut case.open_tiles);
        match rng.below(9) {
            0 => grid.width = rng.pick(&EDGES),
            1 => grid.height = rng.pick(&EDGES),
            2 => grid.tile_width = rng.pick(&EDGES),
            3 => grid.tile_height = rng.pick(&EDGES),
            4 => grid.tiles_x = grid.tiles_x.wrapping_add(rng.below(3)).wrapping_sub(1),
            5 => grid.tiles_y = grid.tiles_y.wrapping_add(rng.below(3)).wrapping_sub(1),
            // As many tiles, with rows and columns exchanged.
            6 => (grid.tiles_x, grid.tiles_y) = (grid.tiles_y, grid.tiles_x),
            _ if call == Call::RowAllSkip => open_tiles.truncate(rng.below(open_tiles.len())),
            _ => tiles.truncate(rng.below(tiles.len())),
        }
        case.rust = case.rust.filter(|_| case.grid == asked);
    }
    case.value = rng.byte();
    run.case(&case)
}

/// Lends numbers past the tile rows, and now and then numbers that the skips do not have.
fn more_numbers(rng: &mut Rng, case: &mut Query) {
    let extra = rng.below(3) * 2;
    case.open_tiles.extend((0..extra).map(|_| rng.next() as u16));
    if rng.one_in(3) {
        let tiles_x = case.grid.tiles_x as u16;
        let numbers = [0, 1, tiles_x, tiles_x + 1, u16::MAX, rng.next() as u16];
        case.open_tiles.iter_mut().for_each(|number| *number = rng.pick(&numbers));
        (case.tiles, case.rust) = (vec![], None);
    }
}

/// Runs grids at the corners, of small pictures and of the largest.
pub fn fixed(run: &mut Run, plan: &Plan, call: Call) -> Checked {
    let usual = TileThresholdConfig::default();
    for (width, height) in [(1, 1), (7, 5), (40, 30)] {
        let g = Geometry::packed(width, height);
        for config in at_corners(usual, width, height) {
            ends(run, call, u8::noise(g.area(), 14), g, config)?;
        }
    }
    if plan.large {
        let (src, g) = largest(15);
        ends(run, call, src, g, usual)?;
    }
    Ok(())
}

/// Runs queries at the ends of the picture and just outside. Its lower half is made flat, so that tiles are skipped
/// there.
fn ends(run: &mut Run, call: Call, mut src: Vec<u8>, g: Geometry, config: TileThresholdConfig) -> Checked {
    src[g.height / 2 * g.stride..].fill(100);
    let case = Query::new(call, &src, g, config, || 1);
    for x in [0, g.width - 1, g.width] {
        for y in [0, g.height - 1, g.height] {
            run.case(&Query { x, y, ..case.clone() })?;
        }
    }
    Ok(())
}
