//! The refusals that documents 01 and 02 add to the Rust's, 4, 8, 9, 10 and 12, and a query's 7, written from their
//! words.

use imgproc::grid::Grid;
use imgproc::Geometry;

/// "a side above 4,096 is 4 (added)"
pub const SIDE_TOO_LARGE: u32 = 4;
/// "workspace under .. is 8 (added)"
pub const WORKSPACE_TOO_SMALL: u32 = 8;
/// "A pixel or row asked for by number is 9 (added)"
pub const OUTSIDE: u32 = 9;
/// "threshold or skip buffer under t bytes 10 (added)"; "a lent u16 buffer of at least tiles_y .. A short one is 10"
pub const GRID_BUFFER_TOO_SMALL: u32 = 10;

/// "It refuses with 12, after 7 and before 8"
pub const WINDOW_TOO_LARGE: u32 = 12;
/// "when min(2 × radius + 1, w) × min(2 × radius + 1, h) exceeds 66,051"
pub const WINDOW_LIMIT: u128 = 66_051;

/// Returns that product.
pub fn window(radius: usize, width: usize, height: usize) -> u128 {
    let across = 2 * radius as u128 + 1;
    across.min(width as u128) * across.min(height as u128)
}

pub fn side_too_large(g: Geometry) -> bool {
    g.width > 4096 || g.height > 4096
}

/// Returns the number of a layout, exact beyond 64 bits, for lengths that no slice of the Rust can have.
pub fn layout(len: usize, g: Geometry) -> u32 {
    let needed = |g: Geometry| g.stride as u128 * (g.height as u128 - 1) + g.width as u128;
    if g.width == 0 || g.height == 0 {
        1
    } else if g.stride < g.width {
        2
    } else if (len as u128) < needed(g) {
        3
    } else if side_too_large(g) {
        SIDE_TOO_LARGE
    } else {
        0
    }
}

/// Tells whether the w * h bytes from `at` on do not all lie in a workspace of `room` bytes.
pub fn plane_outside(room: usize, at: usize, g: Geometry) -> bool {
    (room as u128) < at as u128 + g.width as u128 * g.height as u128
}

/// "sides outside 1..4,096, zero tile sides or tile counts that are not the ceilings"
pub fn bad_grid(grid: Grid) -> bool {
    let Grid { width, height, tile_width, tile_height, tiles_x, tiles_y } = grid;
    let sides = (1..=4096).contains(&width) && (1..=4096).contains(&height);
    if !sides || tile_width == 0 || tile_height == 0 {
        return true;
    }
    tiles_x != width.div_ceil(tile_width) || tiles_y != height.div_ceil(tile_height)
}
