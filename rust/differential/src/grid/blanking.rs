//! Compares `blank_tile` and `clear_tile`, which the Rust does not have, with a plain walk over the tile's row.

use crate::case::{listed, Buffer, Case, Expected, Left, Outcome, Places};
use crate::corner::{self, Corner};
use crate::document;
use crate::guard::Guarded;
use crate::mistake::Mistake;
use crate::open;
use imgproc::grid::{self as ours, flat, Grid};
use imgproc::Refusal;
use std::borrow::Cow;

#[derive(Clone, Copy, PartialEq, Eq, Debug)]
pub enum Call {
    Blank,
    Clear,
}

#[derive(Clone)]
pub struct Blanking {
    pub call: Call,
    pub grid: Grid,
    pub skips: Vec<u8>,
    pub open_tiles: Vec<u16>,
    pub column: usize,
    pub row: usize,
}

impl Blanking {
    /// Makes the call on these buffers.
    pub fn on(&self, skips: &mut [u8], open_tiles: &mut [u16]) -> u32 {
        match self.call {
            Call::Blank => flat::blank_tile(self.grid, skips, open_tiles, self.column, self.row),
            Call::Clear => flat::clear_tile(self.grid, skips, open_tiles, self.column, self.row),
        }
    }

    /// Returns the byte of a tile that was blanked or cleared.
    fn value(&self) -> u8 {
        match self.call {
            Call::Blank => 1,
            Call::Clear => 0,
        }
    }

    /// Returns the number by documents 01 and 02, in their order: sizes 7, buffers 10, place 9.
    pub fn number(&self) -> u32 {
        if document::bad_grid(self.grid) {
            return 7;
        }
        let Grid { tiles_x, tiles_y, .. } = self.grid;
        if self.skips.len() < tiles_x * tiles_y || self.open_tiles.len() < tiles_y {
            return document::GRID_BUFFER_TOO_SMALL;
        }
        if self.column >= tiles_x || self.row >= tiles_y {
            return document::OUTSIDE;
        }
        0
    }

    /// Returns both buffers as the call has to leave them.
    pub fn left(&self) -> (Vec<u8>, Vec<u16>) {
        let (mut skips, mut open_tiles) = (self.skips.clone(), self.open_tiles.clone());
        if self.number() == 0 {
            let tiles_x = self.grid.tiles_x;
            skips[self.row * tiles_x + self.column] = self.value();
            open_tiles[self.row] = open::in_row(&skips, tiles_x, self.row);
        }
        (skips, open_tiles)
    }

    /// Returns both buffers as an accepted call with this mistake leaves them, if it can be made here.
    fn wrong(&self, mistake: Mistake) -> Option<(Vec<u8>, Vec<u16>)> {
        let Grid { tile_height, tiles_x, tiles_y, .. } = self.grid;
        let (i, j) = match mistake {
            Mistake::Exchanged => (self.row, self.column),
            Mistake::PixelRow => (self.column, self.row / tile_height),
            _ => (self.column, self.row),
        };
        if i >= tiles_x || j >= tiles_y {
            return None;
        }
        let (mut skips, mut open_tiles) = (self.skips.clone(), self.open_tiles.clone());
        let before = open::in_row(&skips, tiles_x, j);
        skips[j * tiles_x + i] = self.value();
        let count = open::in_row(&skips, tiles_x, j);
        match mistake {
            Mistake::OneMore => open_tiles[j] = count.wrapping_add(1),
            Mistake::OneLess => open_tiles[j] = count.wrapping_sub(1),
            Mistake::OnlyOnesSkipped => {
                open_tiles[j] = skips[j * tiles_x..][..tiles_x].iter().filter(|&&byte| byte != 1).count() as u16;
            }
            Mistake::SkippedCounted => open_tiles[j] = tiles_x as u16 - count,
            Mistake::NextRow => open_tiles[(j + 1) % tiles_y] = count,
            Mistake::FromTheStored => open_tiles[j] = open_tiles[j].wrapping_add(count).wrapping_sub(before),
            Mistake::EveryRow => (0..tiles_y).for_each(|j| open_tiles[j] = open::in_row(&skips, tiles_x, j)),
            Mistake::CountedBefore => open_tiles[j] = before,
            Mistake::NotCounted => {}
            _ => open_tiles[j] = count,
        }
        Some((skips, open_tiles))
    }
}

impl Case for Blanking {
    fn name(&self) -> &'static str {
        match self.call {
            Call::Blank => "blank_tile",
            Call::Clear => "clear_tile",
        }
    }

    fn ours(&self) -> Outcome {
        let (mut skips, mut open_tiles) = (Guarded::new(&self.skips), Guarded::new(&self.open_tiles));
        let number = self.on(&mut skips, &mut open_tiles);
        Outcome { number, outs: vec![], lent: vec![Buffer::Bytes(skips), Buffer::U16s(open_tiles)] }
    }

    fn expected(&self) -> Result<Expected<'_>, String> {
        let (skips, open_tiles) = self.left();
        let lent = vec![Left::Bytes(Cow::Owned(skips)), Left::U16s(Cow::Owned(open_tiles))];
        Ok(Expected { number: self.number(), outs: vec![], lent })
    }

    fn safe(&self, expected: &Expected<'_>) -> Result<(), String> {
        let (mut skips, mut open_tiles) = (self.skips.clone(), self.open_tiles.clone());
        let call = match self.call {
            Call::Blank => ours::blank_tile,
            Call::Clear => ours::clear_tile,
        };
        let answer = call(self.grid, &mut skips, &mut open_tiles, self.column, self.row);
        let want = Refusal::from_number(expected.number).map_or(Ok(()), Err);
        if answer != want || (skips, open_tiles) != self.left() {
            return Err(format!("the safe call answers {answer:?} where {want:?} is expected, or writes otherwise"));
        }
        Ok(())
    }

    fn places(&self) -> Places {
        let Grid { tiles_x, tiles_y, .. } = self.grid;
        let (tile, tiles) = (self.row.wrapping_mul(tiles_x).wrapping_add(self.column), tiles_x.wrapping_mul(tiles_y));
        let beside = (0..self.skips.len().min(tiles)).rev().find(|&place| place != tile);
        Places { written: Some((0, tile)), beside: beside.map(|place| (0, place)), source: None }
    }

    fn mistaken(&self, mistake: Mistake, outcome: &mut Outcome) -> bool {
        let (right, Some(wrong)) = (self.left(), self.wrong(mistake)) else {
            return false;
        };
        if let [Buffer::Bytes(skips), Buffer::U16s(open_tiles)] = &mut outcome.lent[..] {
            skips.copy_from_slice(&wrong.0);
            open_tiles.copy_from_slice(&wrong.1);
        }
        wrong != right
    }

    fn corners(&self) -> Vec<Corner> {
        let Grid { width, height, tile_width, tile_height, .. } = self.grid;
        [corner::picture(width, height), corner::tile(tile_width, tile_height, width, height)].concat()
    }

    fn smaller(&self) -> Vec<Self> {
        let mut list = Vec::new();
        for place in (0..self.skips.len()).filter(|&place| self.skips[place] > 1) {
            let mut next = self.clone();
            next.skips[place] = 1;
            list.push(next);
        }
        for (column, row) in [(self.column / 2, self.row), (self.column, self.row / 2)] {
            if (column, row) != (self.column, self.row) {
                list.push(Self { column, row, ..self.clone() });
            }
        }
        list
    }

    fn tell(&self) -> String {
        let Self { call, grid, skips, open_tiles, column, row } = self;
        format!(
            "{call:?} of tile ({column}, {row}), {grid:?}\nskips {}\nopen tiles {}",
            listed(skips),
            listed(open_tiles)
        )
    }
}
