//! Counts comparisons by plain walks over the indices of document 01's three rules, and by its formula.

/// Returns the comparisons along one line of n samples: walks each rule index by index.
fn line(n: usize, k: usize) -> u64 {
    let mut count = 0;
    for i in 0..n {
        // Forward: one at each index that is not a multiple of k.
        if i % k != 0 {
            count += 1;
        }
        // Backward: one at each index that is neither last nor k - 1 modulo k.
        if i != n - 1 && i % k != k - 1 {
            count += 1;
        }
        // Joining: one at each index.
        count += 1;
    }
    count
}

/// Returns R(k) = h(3w - 2⌈w/k⌉) + w(3h - 2⌈h/k⌉).
fn formula(w: usize, h: usize, k: usize) -> u64 {
    (h * (3 * w - 2 * w.div_ceil(k)) + w * (3 * h - 2 * h.div_ceil(k))) as u64
}

/// Returns the comparisons of this many erosions and dilations, or an error if walk and formula disagree.
pub fn comparisons(w: usize, h: usize, k: usize, passes: u64) -> Result<u64, String> {
    let walked = h as u64 * line(w, k) + w as u64 * line(h, k);
    let worked_out = formula(w, h, k);
    if walked != worked_out {
        return Err(format!("the walk counts {walked}, the formula {worked_out}"));
    }
    Ok(passes * walked)
}
