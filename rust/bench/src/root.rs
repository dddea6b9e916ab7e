//! Times one root for each pixel against the processor's.

use crate::time::{row, Row};
use imgproc::root::root;

struct Roots {
    of: Vec<f64>,
    bits: u64,
    left: Vec<u8>,
}

fn summed(roots: &mut Roots, root: impl Fn(f64) -> f64) {
    roots.bits = roots.of.iter().fold(0, |bits, &x| bits ^ root(x).to_bits());
    roots.left = roots.bits.to_le_bytes().to_vec();
}

pub fn measure(rows: &mut Vec<Row>) {
    rows.push(row(
        "root, one a pixel",
        |w, h| Roots { of: (0..w * h).map(|i| i as f64 / 7.0).collect(), bits: 0, left: vec![] },
        |roots| summed(roots, root),
        |roots| summed(roots, f64::sqrt),
        |roots| &roots.left,
    ));
}
