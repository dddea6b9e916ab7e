//! Counts open tiles, those that are not skipped, by plain walks. The published Rust does not count them.

use qr_lab_imgproc::threshold::TileThresholdGrid;

/// Returns the number of open tiles of tile row j, by the skip bytes. Every byte but 0 is skipped.
pub fn in_row(skips: &[u8], tiles_x: usize, j: usize) -> u16 {
    let mut open = 0;
    for i in 0..tiles_x {
        if skips[j * tiles_x + i] == 0 {
            open += 1;
        }
    }
    open
}

/// Returns the number of open tiles of each tile row of the Rust's grid.
pub fn of_rows(grid: &TileThresholdGrid) -> Vec<u16> {
    let skips: Vec<u8> = grid.skip_mask().iter().map(|&skip| u8::from(skip)).collect();
    (0..grid.tiles_y()).map(|j| in_row(&skips, grid.tiles_x(), j)).collect()
}

/// Returns the buffer with these numbers in its first places.
pub fn stored(numbers: &[u16], mut buffer: Vec<u16>) -> Vec<u16> {
    buffer[..numbers.len()].copy_from_slice(numbers);
    buffer
}
