//! Makes layouts, right and wrong, and pictures to fill them.

use crate::rng::{Rng, Word};
use imgproc::{Geometry, MAX_SIDE};

/// Numbers at which something changes, up to the largest.
pub const EDGES: [usize; 19] = [
    0,
    1,
    2,
    3,
    4,
    7,
    4095,
    4096,
    4097,
    65_535,
    65_536,
    (1 << 32) - 1,
    1 << 32,
    (1 << 32) + 1,
    (1 << 63) - 1,
    1 << 63,
    (1 << 63) + 1,
    usize::MAX - 1,
    usize::MAX,
];

/// Returns the needed length of a layout that is known to fit.
pub fn needed(g: Geometry) -> usize {
    g.stride * (g.height - 1) + g.width
}

/// Makes a slice of noise that holds the picture, at times with padding and a tail.
pub fn good(rng: &mut Rng, width: usize, height: usize) -> (Vec<u8>, Geometry) {
    let stride = match rng.below(6) {
        0..=2 => width,
        3 => width + 1,
        4 => width + rng.below(40),
        // A picture of one row accepts every stride.
        _ if height == 1 => rng.pick(&[usize::MAX, usize::MAX - 1, 1 << 63, 4097]).max(width),
        _ => width + rng.below(9),
    };
    let g = Geometry { width, height, stride };
    let len = needed(g) + if rng.one_in(2) { 0 } else { rng.within(1, 20) };
    (u8::noise(len, rng.next()), g)
}

/// Makes a good picture of another size, at times with as many pixels.
pub fn another_size(rng: &mut Rng, width: usize, height: usize) -> (Vec<u8>, Geometry) {
    let (w, h) = match rng.below(4) {
        0 => (width + 1, height),
        1 => (width, height + 1),
        2 => (height, width),
        _ => (width * 2, height.div_ceil(2)),
    };
    good(rng, w, h)
}

/// Makes a good layout wrong, at times in two ways at once.
pub fn spoil(rng: &mut Rng, data: &mut Vec<u8>, g: &mut Geometry) {
    spoil_once(rng, data, g);
    match rng.below(16) {
        0 => g.width = 0,
        1 => g.stride = g.width.saturating_sub(1),
        2 => data.truncate(data.len() / 2),
        3 => g.height = rng.pick(&EDGES),
        _ => {}
    }
}

fn spoil_once(rng: &mut Rng, data: &mut Vec<u8>, g: &mut Geometry) {
    match rng.below(16) {
        0 => g.width = 0,
        1 => g.height = 0,
        2 => *g = Geometry { width: 0, height: 0, stride: rng.pick(&EDGES) },
        3 => g.stride = g.width - 1,
        4 => g.stride = rng.below(g.width),
        5 => data.truncate(needed(*g) - 1),
        6 => data.truncate(rng.below(needed(*g))),
        7 => data.clear(),
        8 => wide(rng, data, g, Geometry { width: 4097, height: 1, stride: 4097 }),
        9 => wide(rng, data, g, Geometry { width: 1, height: 4097, stride: 1 }),
        10 => {
            wide(rng, data, g, Geometry { width: 1, height: 4097, stride: 1 });
            data.truncate(4096);
        }
        11 => {
            g.height = g.height.max(2);
            g.stride = usize::MAX - rng.below(3);
        }
        12 => {
            // The product of stride and height wraps to 0, so that a length computed in 64 bits would be short.
            let bits = rng.within(13, 51);
            g.stride = 1 << bits;
            g.height = (1 << (64 - bits)) + 1;
        }
        13 => g.height = rng.pick(&EDGES[6..]),
        14 => {
            g.width = rng.pick(&EDGES[6..]);
            g.stride = g.width.saturating_add(rng.below(2));
        }
        _ => *g = Geometry { width: rng.pick(&EDGES), height: rng.pick(&EDGES), stride: rng.pick(&EDGES) },
    }
}

fn wide(rng: &mut Rng, data: &mut Vec<u8>, g: &mut Geometry, to: Geometry) {
    *g = to;
    *data = u8::noise(needed(to) + rng.below(3), rng.next());
}

/// Paints a picture of one kind or another into the rows. Padding and tail stay noise.
pub fn paint(rng: &mut Rng, data: &mut [u8], g: Geometry) {
    let (a, b, c) = (rng.byte(), rng.byte(), rng.byte());
    let (few, kind) = (rng.within(2, 4) as u8, rng.below(10));
    for y in 0..g.height {
        for (x, pixel) in data[y * g.stride..][..g.width].iter_mut().enumerate() {
            *pixel = match kind {
                0..=1 => continue,
                2 => rng.pick(&[a, b]),
                3 => rng.pick(&[a, b, c]),
                4 => rng.pick(&[0, 255]),
                5 => a.wrapping_add(rng.byte() % few),
                6 => a,
                7 => (x + y) as u8 ^ a,
                8 => rng.pick(&[0, 255, a, 255, 255]),
                _ => {
                    if rng.one_in(12) {
                        rng.byte()
                    } else {
                        250
                    }
                }
            };
        }
    }
}

/// Makes a painted picture with a good layout.
pub fn picture(rng: &mut Rng, width: usize, height: usize) -> (Vec<u8>, Geometry) {
    let (mut data, g) = good(rng, width, height);
    paint(rng, &mut data, g);
    (data, g)
}

/// Makes the largest picture, packed, all of it noise.
pub fn largest(seed: u64) -> (Vec<u8>, Geometry) {
    let g = Geometry::packed(MAX_SIDE, MAX_SIDE);
    (u8::noise(g.area(), seed), g)
}

/// Returns the sides of a picture: mostly small, often around multiples of k, at times a line of up to 4096.
pub fn sides(rng: &mut Rng, k: usize) -> (usize, usize) {
    match rng.below(64) {
        0 => (1, rng.within(4090, 4096)),
        1 => (rng.within(4090, 4096), 1),
        2 => (rng.within(1, 4096), 1),
        3 => (1, rng.within(1, 4096)),
        4 => (rng.within(30, 100), rng.within(30, 100)),
        5 => (rng.within(1, 250), rng.within(1, 250)),
        6..=15 => (rng.within(1, 5), rng.within(1, 5)),
        16..=19 => (1, rng.within(1, 90)),
        20..=23 => (rng.within(1, 90), 1),
        _ => (side(rng, k), side(rng, k)),
    }
}

/// Returns a side at, just below or just above a multiple of k.
fn side(rng: &mut Rng, k: usize) -> usize {
    let k = k.clamp(1, 70);
    let most = (66 / k).max(2);
    (rng.within(0, most) * k + rng.below(3)).saturating_sub(1).max(1)
}
