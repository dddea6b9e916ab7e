//! Compares `validate_layout` with the Rust's `Gray8View::new`.

use crate::case::{Case, Expected, Outcome, Places};
use crate::corner::{self, Corner};
use crate::document;
use crate::layouts::{good, spoil, EDGES};
use crate::rng::Rng;
use crate::run::{Checked, Plan, Run};
use crate::rust;
use imgproc::image::{self, flat};
use imgproc::{Geometry, Refusal};
use std::sync::OnceLock;

pub const NAME: &str = "validate_layout";
/// The subject for lengths that no slice here has: the Rust cannot be asked, so the answer is compared with document
/// 01's.
pub const LONG: &str = "validate_layout, by document 01";

/// The longest slice that the Rust is asked about. Only its length matters, so its pages are never touched.
const LONGEST: usize = 1 << 28;

fn longest() -> &'static [u8] {
    static BYTES: OnceLock<Vec<u8>> = OnceLock::new();
    BYTES.get_or_init(|| vec![0; LONGEST])
}

#[derive(Clone)]
struct Layout {
    len: usize,
    g: Geometry,
}

impl Case for Layout {
    fn name(&self) -> &'static str {
        if self.len <= LONGEST {
            NAME
        } else {
            LONG
        }
    }

    fn ours(&self) -> Outcome {
        Outcome { number: flat::validate_layout(self.len, self.g), outs: vec![], lent: vec![] }
    }

    fn expected(&self) -> Result<Expected<'_>, String> {
        let number = document::layout(self.len, self.g);
        if self.len <= LONGEST {
            let asked = rust::view(&longest()[..self.len], self.g).err().unwrap_or(0);
            if asked != number {
                return Err(format!("the Rust gives {asked}, document 01 {number}"));
            }
        }
        Ok(Expected { number, outs: vec![], lent: vec![] })
    }

    fn safe(&self, expected: &Expected<'_>) -> Result<(), String> {
        let answer = image::validate_layout(self.len, self.g).err();
        if answer != Refusal::from_number(expected.number) {
            return Err(format!("the safe call answers {answer:?}"));
        }
        Ok(())
    }

    fn places(&self) -> Places {
        Places::default()
    }

    fn corners(&self) -> Vec<Corner> {
        corner::picture(self.g.width, self.g.height)
    }

    fn smaller(&self) -> Vec<Self> {
        let Geometry { width, height, stride } = self.g;
        let mut list = Vec::new();
        for cut in [|n: usize| n / 2, |n: usize| n.saturating_sub(1)] {
            list.push(Self { len: cut(self.len), g: self.g });
            list.push(Self { len: self.len, g: Geometry { width: cut(width), height, stride } });
            list.push(Self { len: self.len, g: Geometry { width, height: cut(height), stride } });
            list.push(Self { len: self.len, g: Geometry { width, height, stride: cut(stride) } });
        }
        list.retain(|next| (next.len, next.g) != (self.len, self.g));
        list
    }

    fn tell(&self) -> String {
        format!("length {}, {:?}", self.len, self.g)
    }
}

/// Returns a length around the needed one, or any.
fn len_for(rng: &mut Rng, g: Geometry) -> usize {
    let needed = g.stride.wrapping_mul(g.height.wrapping_sub(1)).wrapping_add(g.width);
    match rng.below(6) {
        0 => needed,
        1 => needed.wrapping_sub(1),
        2 => needed.saturating_add(1),
        3 => rng.below(LONGEST + 1),
        4 => rng.pick(&EDGES),
        _ => rng.next() as usize,
    }
}

fn any_number(rng: &mut Rng) -> usize {
    match rng.below(5) {
        0 => rng.pick(&EDGES),
        1 => rng.within(0, 20),
        2 => rng.within(4090, 4100),
        3 => rng.next() as usize >> rng.below(64),
        _ => rng.within(1, 300),
    }
}

fn any(rng: &mut Rng) -> Layout {
    let g = match rng.below(3) {
        0 => {
            let (mut data, mut g) = good(rng, 5, 3);
            spoil(rng, &mut data, &mut g);
            g
        }
        1 => Geometry { width: any_number(rng), height: any_number(rng), stride: any_number(rng) },
        _ => {
            let width = rng.within(1, 4100);
            Geometry { width, height: rng.within(1, 4100), stride: width + rng.below(50) }
        }
    };
    Layout { len: len_for(rng, g), g }
}

pub fn random(run: &mut Run, rng: &mut Rng) -> Checked {
    let mut case = any(rng);
    case.len %= LONGEST + 1;
    run.case(&case)
}

pub fn random_long(run: &mut Run, rng: &mut Rng) -> Checked {
    let mut case = any(rng);
    if case.len <= LONGEST {
        case.len = usize::MAX - case.len;
    }
    run.case(&case)
}

/// Runs every combination of numbers at which something changes, with every length around the needed one.
pub fn fixed(run: &mut Run, _: &Plan) -> Checked {
    for width in EDGES {
        for height in EDGES {
            for stride in EDGES.into_iter().chain([width.wrapping_sub(1), width, width.wrapping_add(1)]) {
                let g = Geometry { width, height, stride };
                let needed = stride.wrapping_mul(height.wrapping_sub(1)).wrapping_add(width);
                for len in [needed.wrapping_sub(1), needed, needed.wrapping_add(1), 0, 1, LONGEST, usize::MAX] {
                    run.case(&Layout { len, g })?;
                }
            }
        }
    }
    Ok(())
}
