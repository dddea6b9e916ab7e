//! Tests the calls that skip a tile by hand: their refusals, what they leave, and that a row is then answered as
//! looking at every tile answers it.

use imgproc::grid::{
    blank_tile, clear_tile, is_skip, row_all_skip, tile_grid_build, tile_rows, tiles, workspace_len, Grid,
    TileThresholdConfig,
};
use imgproc::{Geometry, LumaError, Refusal};

type Call = fn(Grid, &mut [u8], &mut [u16], usize, usize) -> Result<(), Refusal>;

const CALLS: [(Call, u8); 2] = [(blank_tile, 1), (clear_tile, 0)];
const OUTSIDE: Refusal = Refusal::Image(LumaError::OutsidePicture);

/// Three tiles by two, the last of each row and column cut.
const GRID: Grid = Grid { width: 11, height: 7, tile_width: 4, tile_height: 5, tiles_x: 3, tiles_y: 2 };

#[test]
fn one_byte_and_one_number_change() {
    for (call, skip) in CALLS {
        for (column, row) in (0..3).flat_map(|column| [(column, 0), (column, 1)]) {
            // Bytes but 0 count as skipped. The numbers are false, and there are more of both than needed.
            let before = ([0, 3, 0, 1, 0, 255, 0], [70, 80, 90]);
            let (mut skips, mut open_tiles) = before;
            assert_eq!(call(GRID, &mut skips, &mut open_tiles, column, row), Ok(()));
            let mut after = before;
            after.0[3 * row + column] = skip;
            after.1[row] = after.0[3 * row..][..3].iter().filter(|&&byte| byte == 0).count() as u16;
            assert_eq!((skips, open_tiles), after);
        }
    }
}

#[test]
fn each_refusal_comes_in_order_and_changes_nothing() {
    let sizes = |change: fn(&mut Grid)| {
        let mut grid = GRID;
        change(&mut grid);
        grid
    };
    let bad = [
        sizes(|grid| grid.width = 0),
        sizes(|grid| grid.width = 4097),
        sizes(|grid| grid.height = 0),
        sizes(|grid| grid.height = 4097),
        sizes(|grid| grid.tile_width = 0),
        sizes(|grid| grid.tile_height = 0),
        sizes(|grid| grid.tiles_x = 2),
        sizes(|grid| grid.tiles_x = usize::MAX),
        sizes(|grid| grid.tiles_y = 3),
        sizes(|grid| grid.tiles_y = usize::MAX),
    ];
    let mut tried = 0;
    for (call, _) in CALLS {
        for grid in bad.into_iter().chain([GRID]) {
            for (bytes, numbers) in [(6, 2), (5, 2), (0, 2), (6, 1), (6, 0), (0, 0)] {
                for (column, row) in [(2, 1), (3, 1), (2, 2), (usize::MAX, 0), (0, usize::MAX)] {
                    let before = ([0, 2, 1, 0, 0, 1], [9, 9]);
                    let (mut skips, mut open_tiles) = before;
                    let answer = call(grid, &mut skips[..bytes], &mut open_tiles[..numbers], column, row);
                    let reason = if grid != GRID {
                        Refusal::InvalidConfiguration
                    } else if bytes < 6 || numbers < 2 {
                        Refusal::GridBufferTooSmall
                    } else if column >= 3 || row >= 2 {
                        OUTSIDE
                    } else {
                        assert_eq!(answer, Ok(()));
                        continue;
                    };
                    assert_eq!(answer, Err(reason));
                    assert_eq!((skips, open_tiles), before);
                    tried += 1;
                }
            }
        }
    }
    assert_eq!(tried, 2 * (11 * 30 - 1));
}

#[test]
fn a_row_is_asked_of_the_numbers() {
    assert_eq!(row_all_skip(GRID, &[0, 5], 4), Ok(true));
    assert_eq!(row_all_skip(GRID, &[0, 5, 0], 5), Ok(false));
    assert_eq!(row_all_skip(GRID, &[0, 5], 7), Err(OUTSIDE));
    assert_eq!(row_all_skip(GRID, &[0], 7), Err(Refusal::GridBufferTooSmall));
    assert_eq!(row_all_skip(Grid { tiles_y: 1, ..GRID }, &[], 7), Err(Refusal::InvalidConfiguration));
}

#[test]
fn a_build_counts_and_a_short_buffer_is_10_after_8() {
    let geometry = Geometry::packed(11, 7);
    let config = TileThresholdConfig { tile_width: 4, tile_height: 5, contrast_floor: 30, ..Default::default() };
    let config = TileThresholdConfig { neighborhood_radius: 0, ..config };
    // Contrast in the first two tiles of the first tile row.
    let mut picture = [100; 77];
    (picture[1], picture[7]) = (160, 160);
    let build = |room: usize, lens: [usize; 3]| {
        let mut workspace = vec![9; room];
        let (mut thresholds, mut skips, mut open_tiles) = ([9; 8], [9; 8], [9; 4]);
        let answer = tile_grid_build(
            &picture,
            geometry,
            &config,
            &mut workspace,
            &mut thresholds[..lens[0]],
            &mut skips[..lens[1]],
            &mut open_tiles[..lens[2]],
        );
        (answer, (thresholds, skips, open_tiles), workspace)
    };
    let room = workspace_len(11, 7, &config);
    assert_eq!(room, 30);
    let filled = ([130, 130, 100, 100, 100, 100, 9, 9], [0, 0, 1, 1, 1, 1, 9, 9], [2, 0, 9, 9]);
    for lens in [[6, 6, 2], [8, 8, 4]] {
        let (answer, left, _) = build(room, lens);
        assert_eq!((answer, left), (Ok(GRID), filled));
    }
    for lens in [[5, 6, 2], [6, 5, 2], [6, 6, 1], [6, 6, 0]] {
        for (room, reason) in [(room, Refusal::GridBufferTooSmall), (room - 1, Refusal::WorkspaceTooSmall)] {
            assert_eq!(build(room, lens), (Err(reason), ([9; 8], [9; 8], [9; 4]), vec![9; room]));
        }
    }
    assert_eq!(Grid::of(11, 7, &config), GRID);
    assert_eq!((tiles(11, 7, 4, 5), tile_rows(7, 5)), (6, 2));
    assert_eq!(Grid::of(11, 7, &TileThresholdConfig { tile_height: 0, ..config }).tiles_x, 0);
    assert_eq!(tile_rows(7, 0), 0);
}

#[test]
fn after_any_list_of_calls_a_row_is_answered_as_every_tile_is() {
    let config = TileThresholdConfig { tile_width: 5, tile_height: 3, contrast_floor: 140, ..Default::default() };
    let mut state = 1_u64;
    let mut below = |n: usize| {
        state = state.wrapping_mul(6364136223846793005).wrapping_add(1442695040888963407);
        (state >> 33) as usize % n
    };
    let mut seen = [0; 2];
    for _ in 0..60 {
        let geometry = Geometry::packed(1 + below(23), 1 + below(14));
        let picture: Vec<u8> = (0..geometry.area()).map(|_| below(256) as u8).collect();
        let mut workspace = vec![0; workspace_len(geometry.width, geometry.height, &config)];
        let count = tiles(geometry.width, geometry.height, 5, 3);
        let (mut thresholds, mut skips) = (vec![0; count], vec![0; count]);
        let mut open_tiles = vec![0; tile_rows(geometry.height, 3)];
        let grid =
            tile_grid_build(&picture, geometry, &config, &mut workspace, &mut thresholds, &mut skips, &mut open_tiles)
                .unwrap();
        for _ in 0..40 {
            let (call, _) = CALLS[usize::from(below(5) == 0)];
            let (column, row) = (below(grid.tiles_x + 1), below(grid.tiles_y + 1));
            let outside = column == grid.tiles_x || row == grid.tiles_y;
            let answer = call(grid, &mut skips, &mut open_tiles, column, row);
            assert_eq!(answer, if outside { Err(OUTSIDE) } else { Ok(()) });
            for y in 0..geometry.height {
                let all = (0..geometry.width).all(|x| is_skip(grid, &skips, x, y).unwrap());
                assert_eq!(row_all_skip(grid, &open_tiles, y), Ok(all));
                seen[usize::from(all)] += 1;
            }
        }
    }
    assert!(seen[0] > 1000 && seen[1] > 1000, "{seen:?}");
}
