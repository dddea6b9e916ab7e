//! Compares `get`, `set` and `row` with the Rust's views.

use crate::case::{listed, Buffer, Case, Expected, Left, Outcome, Places};
use crate::corner::{self, Corner};
use crate::document;
use crate::guard::Guarded;
use crate::layouts::{good, largest, needed, sides, spoil, EDGES};
use crate::rng::{Rng, Word};
use crate::run::{Checked, Plan, Run};
use crate::rust;
use imgproc::image::{self, flat};
use imgproc::{Geometry, Refusal};
use std::borrow::Cow;

#[derive(Clone, Copy, PartialEq, Eq, Debug)]
pub enum Call {
    Get,
    Set,
    Row,
}

#[derive(Clone)]
struct Asked {
    call: Call,
    data: Vec<u8>,
    g: Geometry,
    x: usize,
    y: usize,
    /// The value that `set` writes, and that the number of `get` holds before the call.
    value: u8,
    /// The buffer to which `row` is copied.
    out: Vec<u8>,
}

impl Asked {
    /// Returns the expected number, or else the Rust's value, picture or row.
    fn decided(&self) -> Result<(u8, Cow<'_, [u8]>), u32> {
        let view = rust::view(&self.data, self.g)?;
        let inside = view.try_get(self.x, self.y).is_some();
        match self.call {
            Call::Get => {
                let value = view.try_get(self.x, self.y).ok_or(document::OUTSIDE)?;
                Ok((value, Cow::Borrowed(&self.data)))
            }
            Call::Set if !inside => Err(document::OUTSIDE),
            Call::Set => {
                let mut data = self.data.clone();
                rust::view_mut(&mut data, self.g)?.set(self.x, self.y, self.value);
                Ok((self.value, Cow::Owned(data)))
            }
            Call::Row if self.y >= self.g.height => Err(document::OUTSIDE),
            Call::Row if self.out.len() < self.g.width => Err(document::WORKSPACE_TOO_SMALL),
            Call::Row => {
                let mut out = self.out.clone();
                out[..self.g.width].copy_from_slice(view.row(self.y));
                Ok((self.value, Cow::Owned(out)))
            }
        }
    }

    /// Checks the returned row: it is the caller's own bytes at the right place, or the check call refuses.
    fn handed_out(&self) -> Result<(), String> {
        let number = match rust::view(&self.data, self.g) {
            Err(number) => number,
            Ok(_) if self.y >= self.g.height => document::OUTSIDE,
            Ok(_) => 0,
        };
        let checked = flat::check_row(self.data.len(), self.g, self.y);
        if checked != number {
            return Err(format!("check_row answers {checked} where {number} is expected"));
        }
        let mut data = self.data.clone();
        let part = image::row_mut(&mut data, self.g, self.y).map(|part| (part.as_ptr() as usize, part.len()));
        let start = data.as_ptr() as usize;
        let want = match Refusal::from_number(number) {
            None => Ok((start + self.y * self.g.stride, self.g.width)),
            Some(refusal) => Err(refusal),
        };
        let read = image::row(&data, self.g, self.y).map(|part| (part.as_ptr() as usize, part.len()));
        if part != want || read != want {
            return Err("the row handed out is another part, or another refusal".to_string());
        }
        Ok(())
    }
}

impl Case for Asked {
    fn name(&self) -> &'static str {
        match self.call {
            Call::Get => "get",
            Call::Set => "set",
            Call::Row => "row",
        }
    }

    fn ours(&self) -> Outcome {
        let (mut data, mut out, mut value) = (Guarded::new(&self.data), Guarded::new(&self.out), self.value);
        let (number, outs) = match self.call {
            Call::Get => (flat::get(&data, self.g, self.x, self.y, &mut value), vec![("value", u64::from(value))]),
            Call::Set => (flat::set(&mut data, self.g, self.x, self.y, value), vec![]),
            Call::Row => (flat::row(&data, self.g, self.y, &mut out), vec![]),
        };
        let mut lent = vec![Buffer::Bytes(data)];
        if self.call == Call::Row {
            lent.push(Buffer::Bytes(out));
        }
        Outcome { number, outs, lent }
    }

    fn expected(&self) -> Result<Expected<'_>, String> {
        let same = |bytes| Left::Bytes(Cow::Borrowed(bytes));
        let (number, value, written) = match self.decided() {
            Ok((value, written)) => (0, value, Some(Left::Bytes(written))),
            Err(number) => (number, self.value, None),
        };
        let lent = match self.call {
            Call::Get => vec![same(&self.data)],
            Call::Set => vec![written.unwrap_or(same(&self.data))],
            Call::Row => vec![same(&self.data), written.unwrap_or(same(&self.out))],
        };
        let outs = if self.call == Call::Get { vec![("value", u64::from(value))] } else { vec![] };
        Ok(Expected { number, outs, lent })
    }

    fn safe(&self, expected: &Expected<'_>) -> Result<(), String> {
        let (mut data, mut out) = (self.data.clone(), self.out.clone());
        let answer = match self.call {
            Call::Get => image::get(&data, self.g, self.x, self.y).map(u64::from),
            Call::Set => image::set(&mut data, self.g, self.x, self.y, self.value).map(|()| 0),
            Call::Row => image::copy_row(&data, self.g, self.y, &mut out).map(|()| 0),
        };
        let want = match Refusal::from_number(expected.number) {
            None => Ok(expected.outs.first().map_or(0, |out| out.1)),
            Some(refusal) => Err(refusal),
        };
        if answer != want {
            return Err(format!("the safe call answers {answer:?} where {want:?} is expected"));
        }
        if self.call == Call::Row {
            self.handed_out()
        } else {
            Ok(())
        }
    }

    fn places(&self) -> Places {
        let (pixel, len) = (self.y.wrapping_mul(self.g.stride).wrapping_add(self.x), self.data.len());
        match self.call {
            Call::Get => Places { source: Some((0, len / 2)), ..Places::default() },
            Call::Set => {
                let other = if pixel == 0 { 1 } else { pixel - 1 };
                Places { written: Some((0, pixel)), beside: (other < len).then_some((0, other)), source: None }
            }
            Call::Row => {
                let beside = (self.out.len() > self.g.width).then_some((1, self.g.width));
                Places { written: Some((1, self.g.width.wrapping_sub(1))), beside, source: Some((0, len / 2)) }
            }
        }
    }

    fn corners(&self) -> Vec<Corner> {
        corner::picture(self.g.width, self.g.height)
    }

    fn smaller(&self) -> Vec<Self> {
        let mut list = Vec::new();
        let g = self.g;
        let mut push = |g: Geometry, x: usize, y: usize, len: usize| {
            let mut next = Self { g, x, y, ..self.clone() };
            next.data.truncate(len);
            list.push(next);
        };
        let len = self.data.len();
        for (width, height) in [(g.width.saturating_sub(1), g.height), (g.width, g.height.saturating_sub(1))] {
            push(Geometry { width, height, ..g }, self.x, self.y, len);
        }
        push(Geometry { stride: g.stride.saturating_sub(1), ..g }, self.x, self.y, len);
        push(g, self.x.saturating_sub(1), self.y, len);
        push(g, self.x, self.y.saturating_sub(1), len);
        push(g, self.x, self.y, len.saturating_sub(1));
        list.retain(|n| (n.g, n.x, n.y, n.data.len()) != (g, self.x, self.y, len));
        list
    }

    fn tell(&self) -> String {
        format!(
            "{:?} at ({}, {}), value {}, {:?}, {}\nrow goes to {}",
            self.call,
            self.x,
            self.y,
            self.value,
            self.g,
            listed(&self.data),
            listed(&self.out)
        )
    }
}

/// Returns a column or row: mostly inside, often at the edge.
fn place(rng: &mut Rng, side: usize) -> usize {
    match rng.below(8) {
        0 => 0,
        1 => side - 1,
        2 => side,
        3 => side + rng.below(9),
        4 if rng.one_in(3) => rng.pick(&EDGES),
        _ => rng.below(side),
    }
}

pub fn random(run: &mut Run, rng: &mut Rng, call: Call) -> Checked {
    let (width, height) = if rng.one_in(200) { sides(rng, 5) } else { (rng.within(1, 9), rng.within(1, 9)) };
    let (mut data, mut g) = good(rng, width, height);
    let (x, y) = (place(rng, width), place(rng, height));
    let room = match rng.below(6) {
        0 => width - 1,
        1 => rng.below(width),
        2 => width + rng.below(20),
        _ => width,
    };
    if rng.one_in(4) {
        spoil(rng, &mut data, &mut g);
    }
    debug_assert!(document::layout(data.len(), g) != 0 || needed(g) <= data.len());
    let out = u8::noise(room, rng.next());
    run.case(&Asked { call, data, g, x, y, value: rng.byte(), out })
}

/// Runs the ends of the largest picture.
pub fn fixed(run: &mut Run, plan: &Plan, call: Call) -> Checked {
    if plan.large {
        let (data, g) = largest(16);
        for (x, y) in [(0, 0), (g.width - 1, g.height - 1)] {
            let out = u8::noise(g.width, 17);
            run.case(&Asked { call, data: data.clone(), g, x, y, value: 18, out })?;
        }
    }
    Ok(())
}
