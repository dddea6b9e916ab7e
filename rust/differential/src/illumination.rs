//! Compares division by the background.

use crate::case::Buffer;
use crate::corner::{self, Corner};
use crate::fault;
use crate::guard::Guarded;
use crate::layouts::{sides, EDGES};
use crate::levels;
use crate::plain;
use crate::rng::{Rng, Word};
use crate::run::{same_defaults, Checked, Plan, Run, Subject};
use crate::through::{Operator, Through};
use imgproc::illumination::{self as ours, flat, BackgroundDivideConfig};
use imgproc::Geometry;
use qr_lab_image::{Gray8View, Gray8ViewMut};
use qr_lab_imgproc::illumination::{self as theirs, IlluminationWorkspace};
use qr_lab_imgproc::ImgProcResult;

#[derive(Clone, Copy, Debug, PartialEq, Eq)]
pub struct Division(pub BackgroundDivideConfig);

impl Operator for Division {
    type Word = u8;
    const COUNTS: bool = true;

    fn name(&self) -> &'static str {
        "background_divide_into"
    }

    fn room(&self, width: usize, height: usize) -> usize {
        7 * width * height
    }

    fn flat(
        &self, src: &[u8], s: Geometry, dst: &mut [u8], d: Geometry, workspace: &mut [u8], comparisons: &mut u64,
    ) -> u32 {
        flat::background_divide_into(src, s, dst, d, &self.0, workspace, comparisons)
    }

    fn safe(
        &self, src: &[u8], s: Geometry, dst: &mut [u8], d: Geometry, workspace: &mut [u8],
    ) -> Result<u64, imgproc::Refusal> {
        ours::background_divide_into(src, s, dst, d, &self.0, workspace)
    }

    fn rust(&self, src: Gray8View<'_>, dst: Gray8ViewMut<'_>) -> ImgProcResult<()> {
        let config = theirs::BackgroundDivideConfig {
            structuring_element: self.0.structuring_element,
            target_luma: self.0.target_luma,
            denominator_floor: self.0.denominator_floor,
        };
        theirs::background_divide_into(src, dst, &config, &mut IlluminationWorkspace::default())
    }

    /// Returns the comparisons of the closing. Raising the background to the floor is not counted.
    fn comparisons(&self, width: usize, height: usize) -> Result<u64, String> {
        plain::comparisons(width, height, self.0.structuring_element, 2)
    }

    fn corners(&self, width: usize, height: usize) -> Vec<Corner> {
        corner::element(self.0.structuring_element, width, height)
    }

    fn simpler(&self) -> Vec<Self> {
        let c = self.0;
        let mut list = vec![BackgroundDivideConfig { structuring_element: 3, ..c }];
        list.push(BackgroundDivideConfig { structuring_element: c.structuring_element.saturating_sub(2), ..c });
        list.push(BackgroundDivideConfig { target_luma: c.target_luma / 2, ..c });
        list.push(BackgroundDivideConfig { denominator_floor: c.denominator_floor / 2, ..c });
        let weight = |c: &BackgroundDivideConfig| {
            c.structuring_element as u128 + u128::from(c.target_luma) + u128::from(c.denominator_floor)
        };
        list.retain(|next| weight(next) < weight(&c));
        list.into_iter().map(Self).collect()
    }

    fn buffer(workspace: Guarded<u8>) -> Buffer {
        Buffer::Bytes(workspace)
    }
}

pub fn settings(rng: &mut Rng) -> Division {
    let structuring_element = match rng.below(10) {
        0..=4 => rng.pick(&[3, 5, 7, 31]),
        5..=7 => 2 * rng.within(1, 40) + 1,
        8 => rng.pick(&[8191, 8193, usize::MAX, usize::MAX - 2]),
        _ => rng.pick(&EDGES) | 1,
    };
    let (target_luma, denominator_floor) = (rng.byte(), rng.byte().max(1));
    let mut config = BackgroundDivideConfig { structuring_element, target_luma, denominator_floor };
    if rng.one_in(3) {
        config = BackgroundDivideConfig { structuring_element, ..BackgroundDivideConfig::default() };
    }
    match rng.below(40) {
        0 => config.denominator_floor = 0,
        1 => config.structuring_element = rng.pick(&[0, 1, 2, 4, 30, usize::MAX - 1]),
        2 => config = BackgroundDivideConfig { structuring_element: 2, denominator_floor: 0, ..config },
        _ => {}
    }
    Division(config)
}

fn random(run: &mut Run, rng: &mut Rng) -> Checked {
    let op = settings(rng);
    let (width, height) = sides(rng, op.0.structuring_element);
    run.case(&Through::random(rng, op, width, height))
}

fn fixed(run: &mut Run, plan: &Plan) -> Checked {
    let (usual, rust) = (BackgroundDivideConfig::default(), theirs::BackgroundDivideConfig::default());
    same_defaults(
        "background_divide_into",
        (usual.structuring_element, usual.target_luma, usual.denominator_floor),
        (rust.structuring_element, rust.target_luma, rust.denominator_floor),
    )?;
    for structuring_element in [3, 5] {
        let op = Division(BackgroundDivideConfig { structuring_element, ..BackgroundDivideConfig::default() });
        levels::all(plan.two_levels, &[0, 255], |src, w, h, seed| run.case(&Through::packed(op, src, w, h, seed)))?;
        levels::all(plan.three_levels, &[7, 8, 200], |src, w, h, seed| {
            run.case(&Through::packed(op, src, w, h, seed))
        })?;
    }
    // One pixel is its own background. The long run tries every value with every floor and target.
    let all: Vec<u8> = (0..=255).collect();
    let targets: &[u8] = if plan.large { &all } else { &[0, 1, 127, 200, 254, 255] };
    let floors: &[u8] = if plan.large { &all[1..] } else { &[1, 2, 7, 8, 9, 100, 254, 255] };
    for &target_luma in targets {
        for &denominator_floor in floors {
            let op = Division(BackgroundDivideConfig { structuring_element: 3, target_luma, denominator_floor });
            for value in 0..=255 {
                run.case(&Through::packed(op, vec![value], 1, 1, 5))?;
            }
        }
    }
    let mut shapes = vec![(4096, 1), (1, 4096), (640, 480)];
    if plan.large {
        shapes.push((4096, 4096));
    }
    for (width, height) in shapes {
        for structuring_element in [usual.structuring_element].into_iter().chain(corner::kernels(width, height)) {
            let op = Division(BackgroundDivideConfig { structuring_element, ..usual });
            run.case(&Through::packed(op, u8::noise(width * height, 4), width, height, 5))?;
        }
    }
    Ok(())
}

pub const SUBJECTS: &[Subject] = &[Subject {
    name: "background_divide_into",
    refuses: &[1, 2, 3, 4, 5, 7, 8],
    corners: &[corner::PICTURE, corner::ELEMENT],
    faults: &[fault::writing(2), fault::COMPARISONS],
    round: 40_000,
    random,
    fixed,
}];
