//! Compares erosion, dilation, opening and closing.

use crate::case::Buffer;
use crate::corner::{self, Corner};
use crate::fault;
use crate::guard::Guarded;
use crate::layouts::{sides, EDGES};
use crate::levels;
use crate::plain;
use crate::rng::{Rng, Word};
use crate::run::{Checked, Plan, Run, Subject};
use crate::through::{Operator, Through};
use imgproc::morphology::{self as ours, flat};
use imgproc::Geometry;
use qr_lab_image::{Gray8View, Gray8ViewMut};
use qr_lab_imgproc::morphology::{self as theirs, MorphologyWorkspace};
use qr_lab_imgproc::ImgProcResult;

#[derive(Clone, Copy, Debug, PartialEq, Eq)]
pub enum Kind {
    Erode,
    Dilate,
    Open,
    Close,
}

/// A call of the safe binding.
type Safe = fn(&[u8], Geometry, &mut [u8], Geometry, usize, &mut [u8]) -> Result<u64, imgproc::Refusal>;

impl Kind {
    pub fn safe(self) -> Safe {
        match self {
            Self::Erode => ours::grayscale_erode_into,
            Self::Dilate => ours::grayscale_dilate_into,
            Self::Open => ours::grayscale_open_into,
            Self::Close => ours::grayscale_close_into,
        }
    }
}

#[derive(Clone, Copy, Debug, PartialEq, Eq)]
pub struct Morphology {
    kind: Kind,
    kernel_size: usize,
}

impl Operator for Morphology {
    type Word = u8;
    const COUNTS: bool = true;

    fn name(&self) -> &'static str {
        match self.kind {
            Kind::Erode => "grayscale_erode_into",
            Kind::Dilate => "grayscale_dilate_into",
            Kind::Open => "grayscale_open_into",
            Kind::Close => "grayscale_close_into",
        }
    }

    fn room(&self, width: usize, height: usize) -> usize {
        6 * width * height
    }

    fn flat(
        &self, src: &[u8], s: Geometry, dst: &mut [u8], d: Geometry, workspace: &mut [u8], comparisons: &mut u64,
    ) -> u32 {
        let call = match self.kind {
            Kind::Erode => flat::grayscale_erode_into,
            Kind::Dilate => flat::grayscale_dilate_into,
            Kind::Open => flat::grayscale_open_into,
            Kind::Close => flat::grayscale_close_into,
        };
        call(src, s, dst, d, self.kernel_size, workspace, comparisons)
    }

    fn safe(
        &self, src: &[u8], s: Geometry, dst: &mut [u8], d: Geometry, workspace: &mut [u8],
    ) -> Result<u64, imgproc::Refusal> {
        self.kind.safe()(src, s, dst, d, self.kernel_size, workspace)
    }

    fn rust(&self, src: Gray8View<'_>, dst: Gray8ViewMut<'_>) -> ImgProcResult<()> {
        let call = match self.kind {
            Kind::Erode => theirs::grayscale_erode_into,
            Kind::Dilate => theirs::grayscale_dilate_into,
            Kind::Open => theirs::grayscale_open_into,
            Kind::Close => theirs::grayscale_close_into,
        };
        call(src, dst, self.kernel_size, &mut MorphologyWorkspace::default())
    }

    fn comparisons(&self, width: usize, height: usize) -> Result<u64, String> {
        let passes = match self.kind {
            Kind::Erode | Kind::Dilate => 1,
            Kind::Open | Kind::Close => 2,
        };
        plain::comparisons(width, height, self.kernel_size, passes)
    }

    fn corners(&self, width: usize, height: usize) -> Vec<Corner> {
        corner::kernel(self.kernel_size, width, height)
    }

    fn simpler(&self) -> Vec<Self> {
        [3, self.kernel_size / 4 * 2 + 1, self.kernel_size.saturating_sub(2)]
            .into_iter()
            .filter(|&kernel_size| kernel_size < self.kernel_size)
            .map(|kernel_size| Self { kernel_size, ..*self })
            .collect()
    }

    fn buffer(workspace: Guarded<u8>) -> Buffer {
        Buffer::Bytes(workspace)
    }
}

/// Returns a kernel: mostly a small one; else one around or beyond the sides, up to the largest; at times a bad one.
fn kernel(rng: &mut Rng) -> usize {
    match rng.below(16) {
        0..=5 => rng.pick(&[3, 5, 7]),
        6..=8 => 2 * rng.within(1, 20) + 1,
        9 => 2 * rng.within(1, 4100) + 1,
        10 => rng.pick(&[4095, 4097, 8189, 8191, 8193]),
        11..=12 => rng.pick(&[usize::MAX, usize::MAX - 2, (1 << 63) + 1, (1 << 63) - 1, (1 << 32) + 1]),
        13 if rng.one_in(2) => rng.pick(&[0, 1, 2, 4, 6, 4096, usize::MAX - 1, 1 << 63]),
        14 => rng.pick(&EDGES) | 1,
        _ => rng.pick(&[31, 33, 63, 65]),
    }
}

/// Returns a kernel, a width and a height. At times the kernel is just below, at or just above the one that reaches
/// over a whole side.
pub fn shape(rng: &mut Rng) -> (usize, usize, usize) {
    let kernel_size = kernel(rng);
    let (width, height) = sides(rng, kernel_size);
    let kernel_size =
        if rng.one_in(8) { (2 * width.max(height) + 1).saturating_sub(2 * rng.below(3)).max(3) } else { kernel_size };
    (kernel_size, width, height)
}

fn random(run: &mut Run, rng: &mut Rng, kind: Kind) -> Checked {
    let (kernel_size, width, height) = shape(rng);
    run.case(&Through::random(rng, Morphology { kind, kernel_size }, width, height))
}

fn fixed(run: &mut Run, plan: &Plan, kind: Kind) -> Checked {
    for kernel_size in [3, 5, 7] {
        let op = Morphology { kind, kernel_size };
        levels::all(plan.two_levels, &[0, 255], |src, w, h, seed| run.case(&Through::packed(op, src, w, h, seed)))?;
        levels::all(plan.three_levels, &[7, 8, 200], |src, w, h, seed| {
            run.case(&Through::packed(op, src, w, h, seed))
        })?;
    }
    // Runs every shape up to just past two blocks on each side, and every short line.
    for kernel_size in [3, 5, 7, 9, 31] {
        let op = Morphology { kind, kernel_size };
        let most = if kernel_size < 9 { 2 * kernel_size + 2 } else { 6 };
        let lines = (1..=4 * kernel_size + 2).flat_map(|n| [(n, 1), (1, n)]);
        for (width, height) in (1..=most).flat_map(|w| (1..=most).map(move |h| (w, h))).chain(lines) {
            let src = u8::noise(width * height, (width * 1000 + height) as u64);
            run.case(&Through::packed(op, src, width, height, kernel_size as u64))?;
        }
    }
    let mut shapes = vec![(4096, 1), (1, 4096), (4096, 2), (2, 4096), (640, 480)];
    if plan.large {
        shapes.push((4096, 4096));
    }
    for (width, height) in shapes {
        for kernel_size in [3, 31].into_iter().chain(corner::kernels(width, height)) {
            let op = Morphology { kind, kernel_size };
            let src = u8::noise(width * height, kernel_size as u64);
            run.case(&Through::packed(op, src, width, height, 1))?;
        }
    }
    Ok(())
}

const fn subject(
    name: &'static str, random: fn(&mut Run, &mut Rng) -> Checked, fixed: fn(&mut Run, &Plan) -> Checked,
) -> Subject {
    Subject {
        name,
        refuses: &[1, 2, 3, 4, 5, 6, 8],
        corners: &[corner::PICTURE, corner::KERNEL],
        faults: const { &[fault::writing(2), fault::COMPARISONS] },
        round: 40_000,
        random,
        fixed,
    }
}

pub const SUBJECTS: &[Subject] = &[
    subject(
        "grayscale_erode_into",
        |run, rng| random(run, rng, Kind::Erode),
        |run, plan| fixed(run, plan, Kind::Erode),
    ),
    subject(
        "grayscale_dilate_into",
        |run, rng| random(run, rng, Kind::Dilate),
        |run, plan| fixed(run, plan, Kind::Dilate),
    ),
    subject("grayscale_open_into", |run, rng| random(run, rng, Kind::Open), |run, plan| fixed(run, plan, Kind::Open)),
    subject(
        "grayscale_close_into",
        |run, rng| random(run, rng, Kind::Close),
        |run, plan| fixed(run, plan, Kind::Close),
    ),
];
