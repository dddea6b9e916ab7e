//! Compares Sauvola's threshold with tables of u32s: with the Rust's Sauvola, with the call whose tables are u64s, and
//! with document 01's rule worked out pixel by pixel.

use crate::case::Buffer;
use crate::corner::{self, Corner, LARGEST_RADIUS};
use crate::document;
use crate::fault;
use crate::guard::Guarded;
use crate::layouts::{paint, sides};
use crate::limit::{Limit, LIMITS};
use crate::rng::{Rng, Word};
use crate::run::{Checked, Run, Subject};
use crate::sauvola::{self, Sauvola};
use crate::through::{Operator, Through};
use imgproc::sauvola::{self as ours, flat, SauvolaConfig};
use imgproc::Geometry;
use qr_lab_image::{Gray8View, Gray8ViewMut};
use qr_lab_imgproc::ImgProcResult;

mod fixed;
mod plain;

#[derive(Clone, Copy, Debug, PartialEq, Eq)]
struct Narrow(SauvolaConfig);

impl Narrow {
    fn usual(radius: usize) -> Self {
        Self(SauvolaConfig { radius, ..SauvolaConfig::default() })
    }

    fn wide(self) -> Sauvola {
        Sauvola(self.0)
    }
}

impl Operator for Narrow {
    type Word = u32;
    const COUNTS: bool = false;

    fn name(&self) -> &'static str {
        "sauvola_narrow_into"
    }

    fn room(&self, width: usize, height: usize) -> usize {
        2 * (width + 1) * (height + 1)
    }

    fn flat(&self, src: &[u8], s: Geometry, dst: &mut [u8], d: Geometry, workspace: &mut [u32], _: &mut u64) -> u32 {
        flat::sauvola_narrow_into(src, s, dst, d, &self.0, workspace)
    }

    fn safe(
        &self, src: &[u8], s: Geometry, dst: &mut [u8], d: Geometry, workspace: &mut [u32],
    ) -> Result<u64, imgproc::Refusal> {
        ours::sauvola_narrow_into(src, s, dst, d, &self.0, workspace).map(|()| 0)
    }

    fn rust(&self, src: Gray8View<'_>, dst: Gray8ViewMut<'_>) -> ImgProcResult<()> {
        self.wide().rust(src, dst)
    }

    fn too_large(&self, width: usize, height: usize) -> bool {
        document::window(self.0.radius, width, height) > document::WINDOW_LIMIT
    }

    /// Compares with the call whose tables are u64s, which has no limit of the window, and with the plain rule.
    fn agrees(&self, case: &Through<Self>, expected: Result<&[u8], u32>) -> Result<(), String> {
        let mut dst = case.dst.clone();
        let mut workspace = u64::noise(case.room, case.seed);
        let number = flat::sauvola_into(&case.src, case.s, &mut dst, case.d, &self.0, &mut workspace);
        let same = match expected {
            Ok(painted) => number == 0 && dst == painted,
            Err(document::WINDOW_TOO_LARGE) if case.room < self.room(case.s.width, case.s.height) => {
                number == document::WORKSPACE_TOO_SMALL
            }
            Err(document::WINDOW_TOO_LARGE) => number == 0,
            Err(refused) => number == refused,
        };
        if !same {
            let want = expected.err().unwrap_or(0);
            return Err(format!(
                "sauvola_into answers {number} where the narrow call's is {want}, or writes otherwise"
            ));
        }
        expected.map_or(Ok(()), |painted| plain::agrees(&self.0, case, painted))
    }

    fn limited(&self, case: &Through<Self>, limit: Limit) -> Option<u32> {
        let Through { src, s, dst, d, room, .. } = case;
        if document::layout(src.len(), *s) != 0 || document::layout(dst.len(), *d) != 0 {
            return None;
        }
        let (size, short) = ([s.width, s.height], *room < self.room(s.width, s.height));
        (size == [d.width, d.height]).then(|| limit.number(self.0.radius, size, self.0.check().is_err(), short))
    }

    fn comparisons(&self, _: usize, _: usize) -> Result<u64, String> {
        Ok(0)
    }

    fn corners(&self, width: usize, height: usize) -> Vec<Corner> {
        [corner::radius(self.0.radius), corner::window(self.0.radius, width, height)].concat()
    }

    fn filled(&self, src: &[u8], s: Geometry) -> Vec<Corner> {
        corner::squares((0..s.height).flat_map(|y| src[y * s.stride..][..s.width].iter().copied()))
    }

    fn simpler(&self) -> Vec<Self> {
        self.wide().simpler().into_iter().map(|simpler| Self(simpler.0)).collect()
    }

    fn buffer(workspace: Guarded<u32>) -> Buffer {
        Buffer::U32s(workspace)
    }
}

/// Returns the least radius whose window is too large in a picture of these sides, or the largest if none is.
fn first_refused(width: usize, height: usize) -> usize {
    let longest = width.max(height);
    (1..=longest).find(|&radius| Narrow::usual(radius).too_large(width, height)).unwrap_or(usize::MAX)
}

/// Returns sides whose product is about the most pixels that a window may have.
fn about_the_limit(rng: &mut Rng) -> (usize, usize) {
    let limit = document::WINDOW_LIMIT as usize;
    let (width, height) = match rng.below(4) {
        0 => rng.pick(&[(257, 257), (257, 258), (258, 258), (256, 259), (300, 300)]),
        1 => rng.pick(&[(369, 179), (196, 337), (4096, 16), (4096, 17)]),
        2 => (196, 337),
        _ => {
            let width = rng.within(17, 4096);
            (width, limit / width + rng.below(2))
        }
    };
    if rng.one_in(2) {
        (width, height)
    } else {
        (height, width)
    }
}

/// Makes a case whose largest window is about the limit, often beside a bad setting or a short workspace.
fn at_limit(rng: &mut Rng) -> Through<Narrow> {
    let (width, height) = about_the_limit(rng);
    let first = first_refused(width, height);
    let radius = match rng.below(8) {
        0..=1 => first,
        2 => first - 1,
        3 => rng.pick(&[128, 129, LARGEST_RADIUS, 4095]),
        4 => rng.pick(&[1 << 31, 1 << 32, (1 << 32) + 1, 1 << 63, (1 << 63) + 1]),
        5 => usize::MAX - rng.below(2),
        _ => rng.within(1, 300),
    };
    let mut config = SauvolaConfig { radius, ..sauvola::settings(rng).0 };
    if rng.one_in(5) {
        config.dynamic_range = 0;
    }
    let mut case = Through::random(rng, Narrow(config), width, height);
    if rng.one_in(5) {
        case.room = rng.below(case.room.max(1));
    }
    case
}

/// Makes a case of a light picture whose squares add up to more than 32 bits hold.
fn wrapped(rng: &mut Rng) -> Through<Narrow> {
    let (width, height) = (rng.within(260, 500), rng.within(260, 500));
    let config = SauvolaConfig { radius: rng.within(1, 128), ..sauvola::settings(rng).0 };
    let mut case = Through::random(rng, Narrow(config), width, height);
    if document::layout(case.src.len(), case.s) == 0 && case.s.width == width && case.s.height == height {
        let (least, kind) = (rng.within(220, 255) as u8, rng.below(3));
        for pixel in &mut case.src {
            *pixel = if kind == 0 { 255 } else { (*pixel).max(least) };
        }
        if kind == 1 {
            let row = Geometry { width, height: rng.within(1, 20), stride: case.s.stride };
            paint(rng, &mut case.src, row);
        }
    }
    case
}

fn random(run: &mut Run, rng: &mut Rng) -> Checked {
    match rng.below(600) {
        0..=3 => return run.case(&at_limit(rng)),
        4 => return run.case(&wrapped(rng)),
        _ => {}
    }
    let op = Narrow(sauvola::settings(rng).0);
    let (width, height) = sides(rng, 2 * op.0.radius.min(16) + 1);
    run.case(&Through::random(rng, op, width, height))
}

pub const SUBJECTS: &[Subject] = &[Subject {
    name: "sauvola_narrow_into",
    refuses: &[1, 2, 3, 4, 5, 7, 8, 12],
    corners: &[corner::PICTURE, corner::RADIUS, corner::WINDOW, corner::WRAPPED],
    faults: &[fault::writing(2), LIMITS],
    round: 15_000,
    random,
    fixed: fixed::cases,
}];
