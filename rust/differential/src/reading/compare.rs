//! Compares `reading` with the chain of the Rust's calls.

use super::chain::{room, Chained, Reading};
use super::shrink;
use crate::case::{listed, Buffer, Case, Expected, Left, Outcome, Outs, Places};
use crate::corner::{self, Corner};
use crate::document;
use crate::guard::Guarded;
use crate::layouts::needed;
use crate::mistake::{self, Mistake};
use crate::open;
use crate::rng::Word;
use imgproc::grid::{TileThresholdConfig, TileThresholdMethod};
use imgproc::reading::{self as ours, flat, ReadingConfig, ReadingCounts};
use imgproc::{Geometry, Refusal};
use std::borrow::Cow;

/// Names the four numbers that a reading gives.
fn named(counts: ReadingCounts) -> Outs {
    let ReadingCounts { dark, light, skipped, comparisons } = counts;
    vec![("dark", dark), ("light", light), ("skipped", skipped), ("comparisons", comparisons)]
}

impl Case for Reading {
    fn name(&self) -> &'static str {
        "reading"
    }

    fn ours(&self) -> Outcome {
        let [a, b, dark, light, skipped, comparisons, c] = self.noise();
        let src = Guarded::new(&self.src);
        let mut dst = Guarded::new(&self.dst);
        let mut bytes = Guarded::new(&u8::noise(self.bytes, a));
        let mut u64s = Guarded::new(&u64::noise(self.u64s, b));
        let mut open_tiles = Guarded::new(&u16::noise(self.open_tiles, c));
        let mut counts = ReadingCounts { dark, light, skipped, comparisons };
        let number = flat::reading(
            &src,
            self.s,
            &mut dst,
            self.d,
            &self.config,
            self.method,
            self.k,
            self.dynamic_range,
            &mut bytes,
            &mut u64s,
            &mut open_tiles,
            &mut counts,
        );
        Outcome {
            number,
            outs: named(counts),
            lent: vec![
                Buffer::Bytes(src),
                Buffer::Bytes(dst),
                Buffer::Bytes(bytes),
                Buffer::U64s(u64s),
                Buffer::U16s(open_tiles),
            ],
        }
    }

    fn expected(&self) -> Result<Expected<'_>, String> {
        let [a, b, dark, light, skipped, comparisons, c] = self.noise();
        let src = Left::Bytes(Cow::Borrowed(self.src.as_slice()));
        Ok(match self.decided() {
            Err(number) => {
                let dst = Left::Bytes(Cow::Borrowed(self.dst.as_slice()));
                let outs = named(ReadingCounts { dark, light, skipped, comparisons });
                Expected { number, outs, lent: vec![src, dst, Left::Noise(a), Left::Noise(b), Left::Noise(c)] }
            }
            Ok(chained) => {
                let dst = Left::Bytes(Cow::Owned(self.painted(&chained.marked)));
                let open_tiles = open::stored(&open::of_rows(&chained.grid), u16::noise(self.open_tiles, c));
                let open_tiles = Left::U16s(Cow::Owned(open_tiles));
                let Chained { dark, light, skipped, .. } = chained;
                let outs = named(ReadingCounts { dark, light, skipped, comparisons: self.comparisons()? });
                Expected { number: 0, outs, lent: vec![src, dst, Left::Open, Left::Open, open_tiles] }
            }
        })
    }

    fn safe(&self, expected: &Expected<'_>) -> Result<(), String> {
        if self.src.len() + self.dst.len() > 2048 {
            return Ok(());
        }
        let method = match self.method {
            0 => TileThresholdMethod::Midrange,
            1 => TileThresholdMethod::Sauvola { k: self.k, dynamic_range: self.dynamic_range },
            _ => return Ok(()),
        };
        let config = ReadingConfig { grid: TileThresholdConfig { method, ..self.config.grid }, ..self.config };
        let mut dst = self.dst.clone();
        let (mut bytes, mut u64s) = (vec![0; self.bytes], vec![0; self.u64s]);
        let mut open_tiles = u16::noise(self.open_tiles, self.noise()[6]);
        let answer =
            ours::reading(&self.src, self.s, &mut dst, self.d, &config, &mut bytes, &mut u64s, &mut open_tiles)
                .map(named);
        let want = match Refusal::from_number(expected.number) {
            None => Ok(expected.outs.clone()),
            Some(refusal) => Err(refusal),
        };
        let painted = expected.lent[1].are_bytes(&dst);
        let counted = expected.lent[4].are_u16s(&open_tiles);
        if answer != want || !painted || !counted {
            return Err(format!("the safe call answers {answer:?} where {want:?} is expected, or writes otherwise"));
        }
        let grid = &self.config.grid;
        let told =
            (ours::bytes_len(self.s.width, self.s.height, grid), ours::u64s_len(self.s.width, self.s.height, grid));
        if answer.is_ok() && told != room(self.s.width, self.s.height, grid) {
            return Err(format!("the workspaces are told as {told:?}"));
        }
        Ok(())
    }

    fn places(&self) -> Places {
        if document::layout(self.dst.len(), self.d) != 0 {
            return Places::default();
        }
        let last = (self.d.height - 1).wrapping_mul(self.d.stride) + self.d.width - 1;
        let padded = self.d.stride > self.d.width && self.d.height > 1;
        let tail = self.dst.len() > needed(self.d);
        Places {
            written: Some((1, last)),
            beside: if padded { Some((1, self.d.width)) } else { tail.then(|| (1, self.dst.len() - 1)) },
            source: Some((0, self.src.len() / 2)),
        }
    }

    fn mistaken(&self, mistake: Mistake, outcome: &mut Outcome) -> bool {
        let Ok(chained) = self.decided() else {
            return false;
        };
        let Chained { grid, flat, .. } = chained;
        let rows = |stride: usize| (0..self.s.height).map(move |y| y * stride);
        let other = match mistake {
            Mistake::OverSource => {
                let source = rows(self.s.stride).flat_map(|y| self.src[y..][..self.s.width].iter().copied());
                self.open_tiles_of(&source.collect::<Vec<u8>>())
            }
            Mistake::OverFlattened => self.open_tiles_of(&flat),
            _ => return mistake::count(mistake, grid.skip_mask(), grid.tiles_x(), &mut outcome.lent[4]),
        };
        let (Ok(numbers), Buffer::U16s(buffer)) = (other, &mut outcome.lent[4]) else {
            return false;
        };
        let right = buffer[..numbers.len()].to_vec();
        buffer[..numbers.len()].copy_from_slice(&numbers);
        right != numbers
    }

    fn corners(&self) -> Vec<Corner> {
        let (Geometry { width, height, .. }, config) = (self.s, &self.config);
        [
            corner::picture(width, height),
            corner::element(config.division.structuring_element, width, height),
            corner::kernel(config.opening_kernel, width, height),
            corner::grid(&config.grid, width, height),
            corner::radius(config.sauvola.radius),
        ]
        .concat()
    }

    fn smaller(&self) -> Vec<Self> {
        shrink::smaller(self)
    }

    fn tell(&self) -> String {
        format!(
            "{:?}, method {}, k {:?}, range {:?}\nsource {:?}, {}\ndestination {:?}, {}\n\
             bytes {}, u64s {}, open tiles {}, seed {}",
            self.config,
            self.method,
            self.k,
            self.dynamic_range,
            self.s,
            listed(&self.src),
            self.d,
            listed(&self.dst),
            self.bytes,
            self.u64s,
            self.open_tiles,
            self.seed
        )
    }
}
