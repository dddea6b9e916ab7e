//! The fixed cases of the narrow Sauvola: all small pictures, windows at their limit, sums past 32 bits, and pairs of
//! refusals.

use super::{plain, Narrow};
use crate::corner::LARGEST_RADIUS;
use crate::document;
use crate::rng::Word;
use crate::run::{Checked, Difference, Plan, Run};
use crate::sauvola;
use crate::through::{Operator, Through};
use imgproc::sauvola::{flat, SauvolaConfig};
use imgproc::{Geometry, MAX_SIDE};

/// Sides, a radius, and whether document 02 lets the largest window pass.
type Window = (usize, usize, usize, bool);

/// The largest window at its limit and around it, and clipped along both axes, along one and along none.
const WINDOWS: [Window; 36] = [
    (257, 257, 1, true),
    (257, 257, 128, true),
    (257, 257, 129, true),
    (257, 257, LARGEST_RADIUS, true),
    (257, 257, 1 << 63, true),
    (257, 257, usize::MAX, true),
    (369, 179, 89, true),
    (369, 179, 90, true),
    (369, 179, 183, true),
    (369, 179, 184, true),
    (369, 179, usize::MAX, true),
    (179, 369, 184, true),
    (196, 337, 97, true),
    (196, 337, 98, true),
    (196, 337, 167, true),
    (196, 337, 168, false),
    (196, 337, 169, false),
    (337, 196, 167, true),
    (337, 196, 168, false),
    (258, 257, 128, true),
    (258, 257, 129, false),
    (257, 258, 128, true),
    (257, 258, 129, false),
    (258, 258, 128, true),
    (258, 258, 129, false),
    (4096, 16, usize::MAX, true),
    (4096, 17, 1942, true),
    (4096, 17, 1943, false),
    (16, 4096, usize::MAX, true),
    (17, 4096, 1942, true),
    (17, 4096, 1943, false),
    (640, 103, 320, true),
    (640, 104, 316, true),
    (640, 104, 317, true),
    (640, 104, 318, false),
    (1, 1, usize::MAX, true),
];

/// Radii whose double wraps in 32 or in 64 bits, and the largest whose double does not wrap in 32.
const WRAPPING: [usize; 9] =
    [(1 << 31) - 1, 1 << 31, 1 << 32, (1 << 32) + 1, (1 << 63) - 1, 1 << 63, (1 << 63) + 1, usize::MAX - 1, usize::MAX];

pub fn cases(run: &mut Run, plan: &Plan) -> Checked {
    others_see()?;
    sauvola::small(run, plan, Narrow)?;
    for (width, height, radius, passes) in WINDOWS {
        windows(run, width, height, radius, passes)?;
    }
    for radius in WRAPPING {
        windows(run, 196, 337, radius, false)?;
    }
    pairs(run)?;
    for (width, height) in [(4096, 1), (1, 4096), (4096, 3)] {
        for radius in [1, 8, 128, 4095, LARGEST_RADIUS] {
            light(run, width, height, radius)?;
        }
    }
    // The largest window that passes: 32 bits just hold its squares where it is white.
    light(run, 369, 179, 184)?;
    // The squares of a white picture of 300 by 300 add up to more than 32 bits hold, once, and those of 640 by 480 four
    // times.
    for (width, height, radius) in [(300, 300, 1), (300, 300, 8), (300, 300, 128), (640, 480, 128), (640, 480, 129)] {
        light(run, width, height, radius)?;
    }
    if plan.large {
        // Those of the largest white picture do so 254 times.
        for radius in [8, 128] {
            light(run, MAX_SIDE, MAX_SIDE, radius)?;
        }
    }
    Ok(())
}

/// Checks that the call whose tables are u64s and the plain rule each see a wrong byte, and the former a wrong number.
fn others_see() -> Checked {
    let case = Through::packed(Narrow::usual(2), u8::noise(20, 1), 5, 4, 7);
    let (op, mut right) = (case.op, case.dst.clone());
    flat::sauvola_into(&case.src, case.s, &mut right, case.d, &op.0, &mut vec![0; case.room]);
    let mut wrong = right.clone();
    wrong[0] ^= 255;
    let agree =
        |painted: &[u8]| [op.agrees(&case, Ok(painted)), plain::agrees(&op.0, &case, painted)].map(|said| said.is_ok());
    if agree(&right) == [true; 2] && agree(&wrong) == [false; 2] && op.agrees(&case, Err(8)).is_err() {
        Ok(())
    } else {
        Err(Difference("the comparisons of sauvola_narrow_into with other computations".into()))
    }
}

/// Runs noise, and checks the product of document 02 against its answer written by hand.
fn windows(run: &mut Run, width: usize, height: usize, radius: usize, passes: bool) -> Checked {
    let window = document::window(radius, width, height);
    if (window <= document::WINDOW_LIMIT) != passes {
        return Err(Difference(format!("{width} x {height}, radius {radius}: a largest window of {window}")));
    }
    let src = u8::noise(width * height, radius as u64);
    run.case(&Through::packed(Narrow::usual(radius), src, width, height, 7))
}

/// Runs a white picture, and light ones with grain, by several settings.
fn light(run: &mut Run, width: usize, height: usize, radius: usize) -> Checked {
    for (least, k_milli, dynamic_range) in [(255, 200, 128), (250, 1000, 3), (240, 0, 128)] {
        let op = Narrow(SauvolaConfig { k_milli, dynamic_range, ..Narrow::usual(radius).0 });
        let src = u8::noise(width * height, radius as u64).into_iter().map(|pixel| pixel.max(least)).collect();
        run.case(&Through::packed(op, src, width, height, 3))?;
    }
    Ok(())
}

/// Runs a window above the limit beside each other refusal, and the others beside each other.
fn pairs(run: &mut Run) -> Checked {
    let above = |config: SauvolaConfig| Through::packed(Narrow(config), u8::noise(196 * 337, 1), 196, 337, 9);
    let usual = Narrow::usual(usize::MAX).0;
    let settings = [
        usual,
        SauvolaConfig { k_milli: 1001, ..usual },
        SauvolaConfig { dynamic_range: 0, ..usual },
        SauvolaConfig { radius: 0, ..usual },
    ];
    let layouts: [fn(&mut Vec<u8>, &mut Geometry); 8] = [
        |_, _| {},
        |_, g| g.height = 0,
        |_, g| g.stride = 195,
        |data, _| data.truncate(196 * 337 - 1),
        |data, g| (*data, *g) = (vec![0; 4097 * 17], Geometry::packed(4097, 17)),
        |data, g| (*data, *g) = (vec![0; 4097 * 17], Geometry::packed(17, 4097)),
        |data, g| (*data, *g) = (vec![0; 257 * 257], Geometry::packed(257, 257)),
        |data, g| (*data, *g) = (vec![0; 66_052], Geometry::packed(337, 196)),
    ];
    for config in settings {
        for short in [0, 1] {
            for layout in layouts {
                let mut case = above(config);
                case.room -= short;
                let mut other = case.clone();
                layout(&mut case.src, &mut case.s);
                layout(&mut other.dst, &mut other.d);
                run.case(&case)?;
                run.case(&other)?;
            }
        }
    }
    Ok(())
}
