//! Mistakes that a count of open tiles, or an answer from it, could have. The self-test plants each in the first case
//! in which it makes a difference, and checks that it is reported.

use crate::case::{Buffer, Outcome};
use crate::fault::Fault::{self, Mistaken};
use imgproc::grid::Grid;
use Mistake::*;

#[derive(Clone, Copy, Debug, PartialEq, Eq)]
pub enum Mistake {
    OneMore,
    OneLess,
    /// A tile counts as skipped only if its byte is 1.
    OnlyOnesSkipped,
    /// The skipped tiles are counted in place of the open ones.
    SkippedCounted,
    /// The number of the next tile row is written or read.
    NextRow,
    /// Tile columns and tile rows change places.
    Exchanged,
    /// A tile row is taken for a pixel row, or the other way round.
    PixelRow,
    /// Every number of the buffer is written, also those past the tile rows.
    PastTheRows,
    /// A reading counts over its source.
    OverSource,
    /// A reading counts over the flattened picture, before the opening.
    OverFlattened,
    /// The stored number is raised or lowered, and not counted afresh.
    FromTheStored,
    /// Every tile row is counted afresh.
    EveryRow,
    /// The row is counted before the tile's byte is set.
    CountedBefore,
    /// The row is not counted.
    NotCounted,
    /// A stored number of 1 is answered with yes.
    OneIsNone,
    /// A stored number above tiles_x is answered with yes.
    AboveIsNone,
}

/// Mistakes of a build.
pub const BUILDING: &[Fault] = &[
    Mistaken(OneMore),
    Mistaken(OneLess),
    Mistaken(SkippedCounted),
    Mistaken(NextRow),
    Mistaken(Exchanged),
    Mistaken(PastTheRows),
];
/// Mistakes of a reading, beside those of a build.
pub const READING: &[Fault] = &[Mistaken(OverSource), Mistaken(OverFlattened)];
/// Mistakes of blanking and clearing.
pub const SKIPPING: &[Fault] = &[
    Mistaken(OneMore),
    Mistaken(OneLess),
    Mistaken(OnlyOnesSkipped),
    Mistaken(SkippedCounted),
    Mistaken(NextRow),
    Mistaken(Exchanged),
    Mistaken(PixelRow),
    Mistaken(FromTheStored),
    Mistaken(EveryRow),
    Mistaken(CountedBefore),
    Mistaken(NotCounted),
];
/// Mistakes of the query for a row.
pub const ASKING: &[Fault] = &[Mistaken(NextRow), Mistaken(PixelRow), Mistaken(OneIsNone), Mistaken(AboveIsNone)];

/// Changes the count buffer of a build or a reading, which has the right numbers of these skips. Tells whether they
/// change.
pub fn count(mistake: Mistake, skips: &[bool], tiles_x: usize, buffer: &mut Buffer) -> bool {
    let Buffer::U16s(buffer) = buffer else {
        return false;
    };
    let rows = skips.len() / tiles_x;
    let right = buffer.to_vec();
    let counted = |of: &dyn Fn(usize, usize) -> usize, j: usize| (0..tiles_x).filter(|&i| !skips[of(i, j)]).count();
    for (j, number) in buffer[..rows].iter_mut().enumerate() {
        *number = match mistake {
            OneMore => right[j].wrapping_add(1),
            OneLess => right[j].wrapping_sub(1),
            SkippedCounted => (tiles_x - counted(&|i, j| j * tiles_x + i, j)) as u16,
            NextRow => right[(j + 1) % rows],
            Exchanged => counted(&|i, j| i * rows + j, j) as u16,
            _ => right[j],
        };
    }
    if mistake == PastTheRows {
        buffer[rows..].fill(0);
    }
    buffer[..] != right
}

/// Changes the answer for pixel row y. Tells whether it changes.
pub fn answer(mistake: Mistake, grid: Grid, open_tiles: &[u16], y: usize, outcome: &mut Outcome) -> bool {
    let j = y / grid.tile_height;
    let wrong = match mistake {
        NextRow => open_tiles[(j + 1) % grid.tiles_y] == 0,
        PixelRow => open_tiles.get(y) == Some(&0),
        OneIsNone => open_tiles[j] <= 1,
        AboveIsNone => open_tiles[j] == 0 || usize::from(open_tiles[j]) > grid.tiles_x,
        _ => return false,
    };
    let right = std::mem::replace(&mut outcome.outs[0].1, u64::from(wrong));
    right != u64::from(wrong)
}
