//! Compares the square root of an f64, bit by bit, with one that is worked out in whole numbers, digit by digit. Neither the
//! library's code nor the processor's square root has a part in it.

use crate::case::{Case, Expected, Outcome, Places};
use crate::fault::Fault::Count;
use crate::patterns;
use crate::rng::Rng;
use crate::run::{Checked, Plan, Run, Subject};
use imgproc::root::root;

#[derive(Clone)]
struct Root(f64);

/// The bits of the one NaN that the library gives.
const NAN: u64 = 0x7ff8_0000_0000_0000;

/// Returns the bits of the root of x, rounded to nearest. No root lies half way between two f64: its square would have more
/// digits than an f64.
fn plain(x: f64) -> u64 {
    if x.is_nan() || x < 0.0 {
        return NAN;
    }
    if x == 0.0 || x.is_infinite() {
        return x.to_bits();
    }
    // x is m * 2^e, where m has 53 or 54 digits and e is even.
    let fraction = x.to_bits() & ((1 << 52) - 1);
    let (mut m, mut e) = match x.to_bits() >> 52 {
        0 => (fraction, -1074),
        field => (fraction | 1 << 52, field as i64 - 1075),
    };
    while m < 1 << 52 || e % 2 != 0 {
        m <<= 1;
        e -= 1;
    }
    // The root has 54 digits before the point, and the last of them rounds it.
    let square = u128::from(m) << 54;
    let digits = (0..54).rev().fold(0u128, |root, place| {
        let next = root | 1 << place;
        if next * next <= square { next } else { root }
    });
    let rounded = (digits as u64).div_ceil(2);
    // The root is rounded * 2^((e - 54) / 2 + 1). A carry past 53 digits goes into the exponent.
    ((((e - 54) / 2 + 1076) as u64) << 52) + (rounded - (1 << 52))
}

impl Case for Root {
    fn name(&self) -> &'static str {
        "root"
    }

    fn ours(&self) -> Outcome {
        Outcome { number: 0, outs: vec![("root", root(self.0).to_bits())], lent: vec![] }
    }

    fn expected(&self) -> Result<Expected<'_>, String> {
        Ok(Expected { number: 0, outs: vec![("root", plain(self.0))], lent: vec![] })
    }

    fn safe(&self, _: &Expected<'_>) -> Result<(), String> {
        Ok(())
    }

    fn places(&self) -> Places {
        Places::default()
    }

    fn smaller(&self) -> Vec<Self> {
        [self.0.trunc(), (self.0 / 4.0).trunc()].into_iter().filter(|x| x.abs() < self.0.abs()).map(Self).collect()
    }

    fn tell(&self) -> String {
        format!("{:?}, bits {:#x}", self.0, self.0.to_bits())
    }
}

/// Returns any bit pattern, or a number above zero of one of several kinds.
fn operand(rng: &mut Rng) -> f64 {
    match rng.below(7) {
        0 => patterns::any(rng),
        1 => f64::from_bits(rng.next() >> 1),
        // Subnormal.
        2 => f64::from_bits(rng.next() >> (12 + rng.below(52))),
        3 => (rng.next() >> rng.below(64)) as f64,
        // Around a square.
        4 => {
            let side = f64::from_bits(0x3ff0_0000_0000_0000 | rng.next() >> 12);
            f64::from_bits((side * side).to_bits() + rng.below(3) as u64 - 1)
        }
        5 => {
            let side = (rng.next() >> (38 + rng.below(26))) as f64;
            side * side
        }
        // A number like a variance.
        _ => (rng.next() >> 40) as f64 / rng.within(1, 70_000) as f64,
    }
}

fn random(run: &mut Run, rng: &mut Rng) -> Checked {
    run.case(&Root(operand(rng)))
}

fn fixed(run: &mut Run, _: &Plan) -> Checked {
    // The exponent takes every value and the sign both, so zeros, infinities and NaNs of both signs are among them.
    for sign_and_exponent in 0..4096u64 {
        for fraction in [0, 1, 2, (1 << 51) - 1, 1 << 51, (1 << 51) + 1, (1 << 52) - 2, (1 << 52) - 1] {
            run.case(&Root(f64::from_bits(sign_and_exponent << 52 | fraction)))?;
        }
    }
    for whole in 0..=65_025u32 {
        run.case(&Root(f64::from(whole)))?;
    }
    Ok(())
}

pub const SUBJECTS: &[Subject] =
    &[Subject { name: "root", refuses: &[], corners: &[], faults: &[&[Count("root")]], round: 1_000_000, random, fixed }];
