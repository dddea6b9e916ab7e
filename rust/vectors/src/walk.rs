//! Counts comparisons, which the published Rust does not: a plain walk over the indices of document 01's three rules.

/// Returns the comparisons along one line of n samples.
fn line(n: usize, kernel: usize) -> u64 {
    let forward = (0..n).filter(|index| index % kernel != 0).count();
    let backward = (0..n).filter(|index| index + 1 != n && index % kernel != kernel - 1).count();
    let joining = n;
    (forward + backward + joining) as u64
}

/// Returns the comparisons of one erosion or dilation: each row, then each column.
pub fn comparisons(width: usize, height: usize, kernel: usize) -> u64 {
    height as u64 * line(width, kernel) + width as u64 * line(height, kernel)
}
