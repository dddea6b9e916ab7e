//! Makes bit patterns of f64, with infinities, NaNs, subnormal and negative values among them.

use crate::rng::Rng;

const SIGN: u64 = 1 << 63;
const EXPONENT: u64 = 0x7ff << 52;
const FRACTION: u64 = (1 << 52) - 1;

/// Returns any pattern. Classes with few patterns come up about as often as those with many.
pub fn any(rng: &mut Rng) -> f64 {
    let bits = rng.next();
    f64::from_bits(match rng.below(8) {
        // An infinity.
        0 => bits & SIGN | EXPONENT,
        // A NaN, quiet or signalling.
        1 => bits | EXPONENT | 1 << rng.below(52),
        2 => bits & SIGN | EXPONENT | 1 << rng.below(52),
        // Subnormal, or a zero.
        3 => bits & SIGN | (bits & FRACTION) >> rng.below(64),
        // From 2^-9 to 2^10, where settings usually are.
        4..=5 => bits & (SIGN | FRACTION) | (rng.within(1023 - 9, 1023 + 9) as u64) << 52,
        _ => bits,
    })
}

/// Returns some patterns of each class, with both signs.
pub fn of_each_class() -> impl Iterator<Item = f64> {
    let zero_and_subnormal = [0, 1, 1 << 51, FRACTION];
    let normal = [f64::MIN_POSITIVE, 0.2, 1.0, 128.0, f64::MAX].map(f64::to_bits);
    let infinite_and_nan = [EXPONENT, EXPONENT | 1, EXPONENT | 1 << 51, EXPONENT | FRACTION];
    let all = zero_and_subnormal.into_iter().chain(normal).chain(infinite_and_nan);
    all.flat_map(|bits| [bits, bits | SIGN]).map(f64::from_bits)
}

/// Returns every pair of them, as the grid's k and dynamic_range.
pub fn pairs() -> impl Iterator<Item = (f64, f64)> {
    of_each_class().flat_map(|k| of_each_class().map(move |range| (k, range)))
}

/// Replaces one of the two or both, in about every third case.
pub fn mix(rng: &mut Rng, k: &mut f64, dynamic_range: &mut f64) {
    let (first, second) = (any(rng), any(rng));
    match rng.below(9) {
        0 => *k = first,
        1 => *dynamic_range = second,
        2 => (*k, *dynamic_range) = (first, second),
        _ => {}
    }
}
