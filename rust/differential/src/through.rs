//! Drives every call that takes a picture, a destination, settings and a workspace.

use crate::case::{listed, Buffer, Case, Expected, Left, Outcome, Places};
use crate::corner::{self, Corner};
use crate::document;
use crate::guard::Guarded;
use crate::layouts::{another_size, good, needed, picture, spoil};
use crate::limit::Limit;
use crate::rng::{Rng, Word};
use crate::rust;
use imgproc::{Geometry, Refusal};
use qr_lab_image::{Gray8View, Gray8ViewMut};
use qr_lab_imgproc::ImgProcResult;
use std::borrow::Cow;
use std::fmt::Debug;

mod shrink;

/// A call with its settings.
pub trait Operator: Clone + Debug {
    type Word: Word;
    /// True if the call gives the number of comparisons.
    const COUNTS: bool;
    fn name(&self) -> &'static str;
    /// Returns the length of the workspace that documents 01 and 02 ask for.
    fn room(&self, width: usize, height: usize) -> usize;
    fn flat(
        &self, src: &[u8], s: Geometry, dst: &mut [u8], d: Geometry, workspace: &mut [Self::Word],
        comparisons: &mut u64,
    ) -> u32;
    fn safe(
        &self, src: &[u8], s: Geometry, dst: &mut [u8], d: Geometry, workspace: &mut [Self::Word],
    ) -> Result<u64, Refusal>;
    fn rust(&self, src: Gray8View<'_>, dst: Gray8ViewMut<'_>) -> ImgProcResult<()>;
    /// Tells whether its settings, which are in range, are refused all the same over a picture of these sides.
    fn too_large(&self, _width: usize, _height: usize) -> bool {
        false
    }
    /// Compares what is expected, the destination or a refusal's number, with other computations of the same.
    fn agrees(&self, _case: &Through<Self>, _expected: Result<&[u8], u32>) -> Result<(), String> {
        Ok(())
    }
    /// Returns the number of the case for a call with this limit of the window, if its layouts and sizes are right.
    fn limited(&self, _case: &Through<Self>, _limit: Limit) -> Option<u32> {
        None
    }
    /// Returns the comparisons of an accepted call; 0 if it gives none.
    fn comparisons(&self, width: usize, height: usize) -> Result<u64, String>;
    /// Returns the corners at which its settings stand over a picture of these sides.
    fn corners(&self, width: usize, height: usize) -> Vec<Corner>;
    /// Returns the corners at which the pixels themselves stand.
    fn filled(&self, _src: &[u8], _s: Geometry) -> Vec<Corner> {
        vec![]
    }
    fn simpler(&self) -> Vec<Self>;
    fn buffer(workspace: Guarded<Self::Word>) -> Buffer;
}

#[derive(Clone)]
pub struct Through<O> {
    pub op: O,
    pub src: Vec<u8>,
    pub s: Geometry,
    pub dst: Vec<u8>,
    pub d: Geometry,
    /// The workspace's length.
    pub room: usize,
    /// The seed of the noise in the workspace and in the number to be written.
    pub seed: u64,
}

impl<O: Operator> Through<O> {
    /// Makes a case of packed pictures with exact lengths.
    pub fn packed(op: O, src: Vec<u8>, width: usize, height: usize, seed: u64) -> Self {
        let s = Geometry::packed(width, height);
        let dst = u8::noise(src.len(), !seed);
        Self { room: op.room(width, height), op, src, s, dst, d: s, seed }
    }

    /// Makes a case with any layouts. In three of ten cases it spoils a layout, the sizes or the workspace.
    pub fn random(rng: &mut Rng, op: O, width: usize, height: usize) -> Self {
        let (mut src, mut s) = picture(rng, width, height);
        let (mut dst, mut d) = good(rng, width, height);
        let mut room = op.room(width, height);
        room += if rng.one_in(3) { rng.below(40) } else { 0 };
        match rng.below(20) {
            0 => spoil(rng, &mut src, &mut s),
            1 => spoil(rng, &mut dst, &mut d),
            2 => {
                spoil(rng, &mut src, &mut s);
                spoil(rng, &mut dst, &mut d);
            }
            3 => (dst, d) = another_size(rng, width, height),
            4 => room = op.room(width, height) - 1,
            5 => room = rng.below(op.room(width, height)),
            _ => {}
        }
        Self { op, src, s, dst, d, room, seed: rng.next() }
    }

    fn noise_number(&self) -> u64 {
        self.seed.rotate_left(17)
    }

    /// Returns the expected number, or else the destination as the Rust leaves it.
    fn decided(&self) -> Result<Vec<u8>, u32> {
        let src = rust::view(&self.src, self.s)?;
        let mut swept = self.dst.clone();
        let dst = rust::view_mut(&mut swept, self.d)?;
        self.op.rust(src, dst).map_err(rust::imgproc)?;
        if self.op.too_large(self.s.width, self.s.height) {
            return Err(document::WINDOW_TOO_LARGE);
        }
        if self.room < self.op.room(self.s.width, self.s.height) {
            return Err(document::WORKSPACE_TOO_SMALL);
        }
        Ok(swept)
    }

    /// Returns the expected destination: the rows as the Rust leaves them, and every other byte as it was.
    fn painted(&self, swept: &[u8]) -> Vec<u8> {
        let mut painted = self.dst.clone();
        for y in 0..self.d.height {
            let row = y * self.d.stride..y * self.d.stride + self.d.width;
            painted[row.clone()].copy_from_slice(&swept[row]);
        }
        painted
    }
}

impl<O: Operator> Case for Through<O> {
    fn name(&self) -> &'static str {
        self.op.name()
    }

    fn ours(&self) -> Outcome {
        let src = Guarded::new(&self.src);
        let mut dst = Guarded::new(&self.dst);
        let mut workspace = Guarded::new(&O::Word::noise(self.room, self.seed));
        let mut comparisons = self.noise_number();
        let number = self.op.flat(&src, self.s, &mut dst, self.d, &mut workspace, &mut comparisons);
        Outcome {
            number,
            outs: if O::COUNTS { vec![("comparisons", comparisons)] } else { vec![] },
            lent: vec![Buffer::Bytes(src), Buffer::Bytes(dst), O::buffer(workspace)],
        }
    }

    fn expected(&self) -> Result<Expected<'_>, String> {
        let src = Left::Bytes(Cow::Borrowed(self.src.as_slice()));
        let decided = self.decided().map(|swept| self.painted(&swept));
        self.op.agrees(self, decided.as_deref().map_err(|&number| number))?;
        let (number, out, dst, workspace) = match decided {
            Ok(painted) => {
                let out = self.op.comparisons(self.s.width, self.s.height)?;
                (0, out, Cow::Owned(painted), Left::Open)
            }
            Err(number) => (number, self.noise_number(), Cow::Borrowed(self.dst.as_slice()), Left::Noise(self.seed)),
        };
        let outs = if O::COUNTS { vec![("comparisons", out)] } else { vec![] };
        Ok(Expected { number, outs, lent: vec![src, Left::Bytes(dst), workspace] })
    }

    fn safe(&self, expected: &Expected<'_>) -> Result<(), String> {
        if self.src.len() + self.dst.len() > 2048 {
            return Ok(());
        }
        let mut dst = self.dst.clone();
        let mut workspace = O::Word::noise(self.room, self.seed);
        let answer = self.op.safe(&self.src, self.s, &mut dst, self.d, &mut workspace);
        let want = match Refusal::from_number(expected.number) {
            None => Ok(expected.outs.first().map_or(0, |out| out.1)),
            Some(refusal) => Err(refusal),
        };
        let painted = matches!(&expected.lent[1], Left::Bytes(bytes) if bytes.as_ref() == dst.as_slice());
        if answer != want || !painted {
            return Err(format!("the safe call answers {answer:?} where {want:?} is expected, or writes otherwise"));
        }
        Ok(())
    }

    fn places(&self) -> Places {
        let last = |g: Geometry| (g.height - 1).wrapping_mul(g.stride) + g.width - 1;
        if document::layout(self.dst.len(), self.d) != 0 {
            return Places::default();
        }
        let padded = self.d.stride > self.d.width && self.d.height > 1;
        let tail = self.dst.len() > needed(self.d);
        Places {
            written: Some((1, last(self.d))),
            beside: if padded { Some((1, self.d.width)) } else { tail.then(|| (1, self.dst.len() - 1)) },
            source: Some((0, self.src.len() / 2)),
        }
    }

    fn limited(&self, limit: Limit, outcome: &mut Outcome) -> bool {
        let number = self.op.limited(self, limit).unwrap_or(outcome.number);
        std::mem::replace(&mut outcome.number, number) != number
    }

    fn corners(&self) -> Vec<Corner> {
        let Geometry { width, height, .. } = self.s;
        let settings = self.op.corners(width, height);
        [corner::picture(width, height), settings, self.op.filled(&self.src, self.s)].concat()
    }

    fn smaller(&self) -> Vec<Self> {
        shrink::smaller(self)
    }

    fn tell(&self) -> String {
        format!(
            "{:?}\nsource {:?}, {}\ndestination {:?}, {}\nworkspace length {}, seed of its noise {}",
            self.op,
            self.s,
            listed(&self.src),
            self.d,
            listed(&self.dst),
            self.room,
            self.seed
        )
    }
}
