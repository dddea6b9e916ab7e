//! Compares `pack` and `unpack` with the rows that the Rust's views give.

use crate::case::{listed, Buffer, Case, Expected, Left, Outcome, Places};
use crate::corner::{self, Corner};
use crate::document;
use crate::guard::Guarded;
use crate::layouts::{good, largest, needed, sides, spoil, EDGES};
use crate::rng::{Rng, Word};
use crate::run::{Checked, Plan, Run};
use crate::rust;
use imgproc::image::{self, flat};
use imgproc::{Geometry, Refusal};
use std::borrow::Cow;

#[derive(Clone)]
struct Plane {
    /// If true, the case packs the picture's rows into the workspace; if false, it unpacks them.
    pack: bool,
    picture: Vec<u8>,
    g: Geometry,
    workspace: Vec<u8>,
    at: usize,
}

impl Plane {
    /// Returns the expected number, or else the written buffer afterwards.
    fn decided(&self) -> Result<Vec<u8>, u32> {
        let view = rust::view(&self.picture, self.g)?;
        if document::plane_outside(self.workspace.len(), self.at, self.g) {
            return Err(document::WORKSPACE_TOO_SMALL);
        }
        if self.pack {
            let rows: Vec<u8> = (0..self.g.height).flat_map(|y| view.row(y).iter().copied()).collect();
            let mut workspace = self.workspace.clone();
            workspace[self.at..self.at + rows.len()].copy_from_slice(&rows);
            return Ok(workspace);
        }
        let mut picture = self.picture.clone();
        let mut view = rust::view_mut(&mut picture, self.g)?;
        let plane = &self.workspace[self.at..];
        for y in 0..self.g.height {
            view.row_mut(y).copy_from_slice(&plane[y * self.g.width..(y + 1) * self.g.width]);
        }
        Ok(picture)
    }
}

impl Case for Plane {
    fn name(&self) -> &'static str {
        if self.pack {
            "pack"
        } else {
            "unpack"
        }
    }

    fn ours(&self) -> Outcome {
        let (mut picture, mut workspace) = (Guarded::new(&self.picture), Guarded::new(&self.workspace));
        let number = if self.pack {
            flat::pack(&picture, self.g, &mut workspace, self.at)
        } else {
            flat::unpack(&workspace, self.at, &mut picture, self.g)
        };
        Outcome { number, outs: vec![], lent: vec![Buffer::Bytes(picture), Buffer::Bytes(workspace)] }
    }

    fn expected(&self) -> Result<Expected<'_>, String> {
        let same = |bytes| Left::Bytes(Cow::Borrowed(bytes));
        let mut lent = vec![same(&self.picture), same(&self.workspace)];
        let number = match self.decided() {
            Ok(written) => {
                lent[usize::from(self.pack)] = Left::Bytes(Cow::Owned(written));
                0
            }
            Err(number) => number,
        };
        Ok(Expected { number, outs: vec![], lent })
    }

    fn safe(&self, expected: &Expected<'_>) -> Result<(), String> {
        let (mut picture, mut workspace) = (self.picture.clone(), self.workspace.clone());
        let answer = if self.pack {
            image::pack(&picture, self.g, &mut workspace, self.at)
        } else {
            image::unpack(&workspace, self.at, &mut picture, self.g)
        };
        if answer.err() != Refusal::from_number(expected.number) {
            return Err(format!("the safe call answers {answer:?}"));
        }
        Ok(())
    }

    fn places(&self) -> Places {
        if document::layout(self.picture.len(), self.g) != 0 {
            return Places::default();
        }
        if self.pack {
            let written = self.at.checked_add(self.g.area()).map(|end| (1, end - 1));
            let beside = if self.at > 0 { Some((1, self.at - 1)) } else { written.map(|(b, i)| (b, i + 1)) };
            return Places { written, beside, source: Some((0, self.picture.len() / 2)) };
        }
        let padded = self.g.stride > self.g.width && self.g.height > 1;
        let tail = self.picture.len() > needed(self.g);
        Places {
            written: Some((0, needed(self.g) - 1)),
            beside: if padded { Some((0, self.g.width)) } else { tail.then(|| (0, self.picture.len() - 1)) },
            source: Some((1, self.workspace.len() / 2)),
        }
    }

    fn corners(&self) -> Vec<Corner> {
        corner::picture(self.g.width, self.g.height)
    }

    fn smaller(&self) -> Vec<Self> {
        let mut list = Vec::new();
        let g = self.g;
        for g in [
            Geometry { width: g.width.saturating_sub(1), ..g },
            Geometry { height: g.height.saturating_sub(1), ..g },
            Geometry { stride: g.stride.saturating_sub(1), ..g },
        ] {
            list.push(Self { g, ..self.clone() });
        }
        list.push(Self { at: self.at / 2, ..self.clone() });
        list.push(Self { at: self.at.saturating_sub(1), ..self.clone() });
        for (picture, workspace) in [(1, 0), (0, 1)] {
            let mut next = self.clone();
            next.picture.truncate(self.picture.len().saturating_sub(picture));
            next.workspace.truncate(self.workspace.len().saturating_sub(workspace));
            list.push(next);
        }
        let size = |c: &Self| (c.g, c.at, c.picture.len(), c.workspace.len());
        list.retain(|next| size(next) != size(self));
        list
    }

    fn tell(&self) -> String {
        format!(
            "{} at {}, {:?}, picture {}\nworkspace {}",
            self.name(),
            self.at,
            self.g,
            listed(&self.picture),
            listed(&self.workspace)
        )
    }
}

pub fn random(run: &mut Run, rng: &mut Rng, pack: bool) -> Checked {
    let (width, height) = if rng.one_in(100) { sides(rng, 5) } else { (rng.within(1, 9), rng.within(1, 9)) };
    let (mut picture, mut g) = good(rng, width, height);
    let mut at = if rng.one_in(2) { 0 } else { rng.below(60) };
    let mut room = at + width * height + if rng.one_in(2) { 0 } else { rng.below(20) };
    match rng.below(16) {
        0 => room = at + width * height - 1,
        1 => room = rng.below(room),
        2 => at = rng.pick(&EDGES),
        // The end of the plane is at or past 2^64 - 1, where a plain sum wraps.
        3 => at = usize::MAX - rng.below(width * height + 1),
        4..=6 => spoil(rng, &mut picture, &mut g),
        _ => {}
    }
    let workspace = u8::noise(room, rng.next());
    run.case(&Plane { pack, picture, g, workspace, at })
}

/// Runs the largest picture.
pub fn fixed(run: &mut Run, plan: &Plan, pack: bool) -> Checked {
    if plan.large {
        let (picture, g) = largest(19);
        let workspace = u8::noise(g.area() + 5, 20);
        run.case(&Plane { pack, picture, g, workspace, at: 5 })?;
    }
    Ok(())
}
