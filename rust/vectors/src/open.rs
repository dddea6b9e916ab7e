//! Counts open tiles, those that are not skipped. The published Rust says which tiles are skipped, and counts none.

/// Returns the number of open tiles of each tile row.
pub fn tiles(skips: &[bool], tiles_x: usize) -> Vec<u16> {
    skips.chunks(tiles_x).map(|row| row.iter().map(|&skip| u16::from(!skip)).sum()).collect()
}

/// Stores the numbers in the first places of a buffer.
pub fn store(numbers: &[u16], buffer: &mut [u16]) {
    buffer[..numbers.len()].copy_from_slice(numbers);
}
