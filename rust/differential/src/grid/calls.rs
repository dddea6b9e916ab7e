//! Makes lists of calls that blank and clear tiles, with queries for rows between them, on one pair of buffers.

use super::blanking::{Blanking, Call};
use super::make::{at_corners, settings};
use super::query::{self, built, Query};
use crate::guard::Guarded;
use crate::layouts::{picture, sides, EDGES};
use crate::open;
use crate::rng::{Rng, Word};
use crate::run::{Checked, Difference, Plan, Run};
use imgproc::grid::{Grid, TileThresholdConfig};
use imgproc::MAX_SIDE;

/// The most calls of a list.
const CALLS: usize = 12;

/// A pair of buffers. Every call of a list is made on it, beside the case that compares the call by itself.
struct Pair {
    skips: Guarded<u8>,
    open_tiles: Guarded<u16>,
}

impl Pair {
    /// Makes the call, lent as much of the pair as the case is, and compares the answer and the whole pair.
    fn take(&mut self, case: &Blanking) -> Checked {
        let (mut skips, mut open_tiles) = (self.skips.to_vec(), self.open_tiles.to_vec());
        let (left, numbers) = case.left();
        skips[..left.len()].copy_from_slice(&left);
        open_tiles[..numbers.len()].copy_from_slice(&numbers);
        let number = case.on(&mut self.skips[..left.len()], &mut self.open_tiles[..numbers.len()]);
        let whole = self.skips.whole() && self.open_tiles.whole();
        if number == case.number() && whole && self.skips[..] == skips && self.open_tiles[..] == open_tiles {
            return Ok(());
        }
        Err(Difference(format!("{:?} as one of a list of calls", case.call)))
    }
}

/// The buffers that a list begins with, and whether their numbers are those of the skips.
struct Begun {
    grid: Grid,
    skips: Vec<u8>,
    open_tiles: Vec<u16>,
    counted: bool,
}

/// Begins with a build of the Rust's, or else with any bytes and any numbers.
fn begun(rng: &mut Rng) -> Begun {
    let (width, height) = sides(rng, 16);
    let mut config = settings(rng, width, height);
    if width * height <= 64 && rng.one_in(3) {
        (config.tile_width, config.tile_height) = (1, rng.pick(&[1, 2, 3]));
    }
    let grid = Grid::of(width, height, &config);
    let counted = rng.one_in(3);
    let (mut skips, mut open_tiles) = if counted {
        let (src, g) = picture(rng, width, height);
        let built = built(&src, g, config);
        (built.skip_mask().iter().map(|&skip| u8::from(skip)).collect(), open::of_rows(&built))
    } else {
        any(rng, grid)
    };
    let extra = rng.below(3);
    skips.extend((0..extra).map(|_| rng.byte()));
    open_tiles.extend((0..extra).map(|_| rng.next() as u16));
    Begun { grid, skips, open_tiles, counted }
}

/// Returns bytes of every value, or few that are not 0, and false numbers.
fn any(rng: &mut Rng, grid: Grid) -> (Vec<u8>, Vec<u16>) {
    let few = rng.one_in(2);
    let byte = |rng: &mut Rng| if few { rng.pick(&[0, 0, 1, 255, rng.clone().byte()]) } else { rng.byte() };
    let numbers = [0, 1, grid.tiles_x as u16, grid.tiles_x as u16 + 1, u16::MAX, rng.next() as u16];
    let skips = (0..grid.tiles_x * grid.tiles_y).map(|_| byte(rng)).collect();
    (skips, (0..grid.tiles_y).map(|_| rng.pick(&numbers)).collect())
}

/// Returns a place on an axis with so many tiles or pixels, at times at its end, just outside or far outside.
fn place(rng: &mut Rng, count: usize) -> usize {
    match rng.below(24) {
        0 => count,
        1 => rng.pick(&EDGES),
        2..=4 => count - 1,
        _ => rng.below(count),
    }
}

/// Makes one of the sizes wrong, or lends less of a buffer.
fn spoil(rng: &mut Rng, case: &mut Blanking) {
    let grid = &mut case.grid;
    match rng.below(9) {
        0 => grid.width = rng.pick(&EDGES),
        1 => grid.height = rng.pick(&EDGES),
        2 => grid.tile_width = rng.pick(&EDGES),
        3 => grid.tile_height = rng.pick(&EDGES),
        4 => grid.tiles_x = grid.tiles_x.wrapping_add(rng.below(3)).wrapping_sub(1),
        5 => (grid.tiles_x, grid.tiles_y) = (grid.tiles_y, grid.tiles_x),
        6 => case.skips.truncate((grid.tiles_x * grid.tiles_y).saturating_sub(1 + rng.below(2))),
        7 => case.open_tiles.truncate(grid.tiles_y.saturating_sub(1 + rng.below(2))),
        _ => grid.tiles_y = grid.tiles_y.wrapping_add(rng.below(3)).wrapping_sub(1),
    }
}

/// Runs a list of calls. A call is lent what the one before it left.
pub fn random(run: &mut Run, rng: &mut Rng) -> Checked {
    let Begun { grid, mut skips, mut open_tiles, counted } = begun(rng);
    let mut pair = Pair { skips: Guarded::new(&skips), open_tiles: Guarded::new(&open_tiles) };
    for _ in 0..rng.within(1, CALLS) {
        if rng.one_in(4) {
            let tiles = if counted { skips.clone() } else { vec![] };
            let (call, open_tiles, y) = (query::Call::RowAllSkip, open_tiles.clone(), place(rng, grid.height));
            run.case(&Query { call, grid, tiles, open_tiles, x: 0, y, value: rng.byte(), rust: None })?;
            continue;
        }
        let call = rng.pick(&[Call::Blank, Call::Clear]);
        let (column, row) = (place(rng, grid.tiles_x), place(rng, grid.tiles_y));
        let mut case = Blanking { call, grid, skips: skips.clone(), open_tiles: open_tiles.clone(), column, row };
        if rng.one_in(10) {
            spoil(rng, &mut case);
        }
        run.case(&case)?;
        pair.take(&case)?;
        let (left, numbers) = case.left();
        skips[..left.len()].copy_from_slice(&left);
        open_tiles[..numbers.len()].copy_from_slice(&numbers);
    }
    Ok(())
}

/// Runs all small inputs of one call, then grids at the corners.
pub fn fixed(run: &mut Run, plan: &Plan, call: Call) -> Checked {
    if plan.two_levels > 0 {
        small(run, call)?;
        each_byte(run, call)?;
    }
    for (width, height) in [(1, 1), (7, 5), (40, 30)] {
        for config in at_corners(TileThresholdConfig::default(), width, height) {
            every_tile(run, call, Grid::of(width, height, &config))?;
        }
    }
    if plan.large {
        let largest = Grid::of(MAX_SIDE, MAX_SIDE, &TileThresholdConfig::default());
        let (skips, open_tiles) = (u8::noise(largest.tiles_x * largest.tiles_y, 16), vec![9; largest.tiles_y]);
        run.case(&Blanking { call, grid: largest, skips, open_tiles, column: 255, row: 255 })?;
    }
    let wide = TileThresholdConfig { tile_width: 1, ..TileThresholdConfig::default() };
    let grid = Grid::of(MAX_SIDE, 2, &wide);
    for byte in [0, 1, 255] {
        let (skips, open_tiles) = (vec![byte; MAX_SIDE], vec![77]);
        run.case(&Blanking { call, grid, skips, open_tiles, column: MAX_SIDE - 1, row: 0 })?;
    }
    Ok(())
}

/// Runs every tile and the places just outside, over noise and false numbers.
fn every_tile(run: &mut Run, call: Call, grid: Grid) -> Checked {
    let (skips, open_tiles) = (u8::noise(grid.tiles_x * grid.tiles_y, 17), u16::noise(grid.tiles_y, 18));
    for row in 0..=grid.tiles_y {
        for column in 0..=grid.tiles_x {
            let (skips, open_tiles) = (skips.clone(), open_tiles.clone());
            run.case(&Blanking { call, grid, skips, open_tiles, column, row })?;
        }
    }
    Ok(())
}

/// Returns the grids of up to three tiles each way, of one pixel and of 2 by 3.
fn small_grids() -> impl Iterator<Item = Grid> {
    let counts = (1..=3).flat_map(|tiles_x| (1..=3).map(move |tiles_y| (tiles_x, tiles_y)));
    counts.flat_map(|(tiles_x, tiles_y)| {
        [(1, 1), (2, 3)].map(|(tile_width, tile_height)| {
            let (width, height) = (tiles_x * tile_width, tiles_y * tile_height);
            Grid { width, height, tile_width, tile_height, tiles_x, tiles_y }
        })
    })
}

/// Runs every tile of small grids, with every choice of bytes: among 0, 1 and 2 for up to six tiles, 0 and 2 for nine.
fn small(run: &mut Run, call: Call) -> Checked {
    for grid in small_grids() {
        let tiles = grid.tiles_x * grid.tiles_y;
        let levels: &[u8] = if tiles > 6 { &[0, 2] } else { &[0, 1, 2] };
        for choice in 0..levels.len().pow(tiles as u32) {
            let digit = |tile: usize| levels[choice / levels.len().pow(tile as u32) % levels.len()];
            let skips: Vec<u8> = (0..tiles).map(digit).collect();
            let open_tiles: Vec<u16> = [choice as u16, 0, u16::MAX][..grid.tiles_y].to_vec();
            for (column, row) in (0..=tiles).map(|tile| (tile % grid.tiles_x, tile / grid.tiles_x)) {
                let (skips, open_tiles) = (skips.clone(), open_tiles.clone());
                run.case(&Blanking { call, grid, skips, open_tiles, column, row })?;
            }
        }
    }
    Ok(())
}

/// Runs each byte value at the tile and beside it.
fn each_byte(run: &mut Run, call: Call) -> Checked {
    let grid = Grid { width: 6, height: 4, tile_width: 2, tile_height: 2, tiles_x: 3, tiles_y: 2 };
    for byte in 0..=255 {
        for (column, row) in (0..6).map(|tile| (tile % 3, tile / 3)) {
            let skips = vec![0, byte, 1, byte, 0, 7, byte];
            run.case(&Blanking { call, grid, skips, open_tiles: vec![500, 0, 3], column, row })?;
        }
    }
    Ok(())
}
