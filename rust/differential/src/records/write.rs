//! Compares the write of a record, through C with numbers of C's types and through the binding.

use super::edge;
use super::numbers::{self, BITS};
use super::plain::{self, Numbers, BYTES};
use super::slip::Slip;
use super::{flat_read, flat_write, kind, record, told, NOISE};
use crate::case::{listed, Buffer, Case, Expected, Left, Outcome, Places};
use crate::corner::Corner;
use crate::guard::Guarded;
use crate::rng::{Rng, Word};
use crate::run::{Checked, Run};
use imgproc::records::Record;
use std::borrow::Cow;

#[derive(Clone)]
pub struct Write {
    pub numbers: Numbers,
    pub dst: Vec<u8>,
}

impl Write {
    /// Makes a case whose destination has so many bytes of noise.
    pub fn new(numbers: Numbers, len: usize) -> Self {
        debug_assert!((0..8).all(|place| numbers[place] <= u64::MAX >> (64 - BITS[place])));
        Self { numbers, dst: u8::noise(len, NOISE) }
    }

    /// Returns the destination as the call has to leave it: its first bytes are written if it is accepted.
    fn left(&self) -> Cow<'_, [u8]> {
        match plain::write(&self.numbers, self.dst.len()) {
            Ok(bytes) => Cow::Owned([&bytes, &self.dst[BYTES..]].concat()),
            Err(_) => Cow::Borrowed(&self.dst),
        }
    }
}

impl Case for Write {
    fn name(&self) -> &'static str {
        "record_write"
    }

    fn ours(&self) -> Outcome {
        let mut dst = Guarded::new(&self.dst);
        let number = flat_write(&self.numbers, &mut dst);
        Outcome { number, outs: vec![], lent: vec![Buffer::Bytes(dst)] }
    }

    fn expected(&self) -> Result<Expected<'_>, String> {
        let number = plain::write(&self.numbers, self.dst.len()).err().unwrap_or(0);
        Ok(Expected { number, outs: vec![], lent: vec![Left::Bytes(self.left())] })
    }

    /// Writes by the safe call if the numbers fit its record. Then reads what an accepted write left.
    fn safe(&self, expected: &Expected<'_>) -> Result<(), String> {
        let Some(record) = record(&self.numbers) else {
            return Ok(());
        };
        let mut dst = self.dst.clone();
        let answer = record.write(&mut dst);
        let want = kind(expected.number).map_or(Ok(()), Err);
        if answer != want || dst != self.left().as_ref() {
            return Err(format!("the safe call answers {answer:?} where {want:?} is expected, or writes otherwise"));
        }
        let mut lent = [1; 8];
        if answer.is_ok()
            && (Record::read(&dst) != Ok(record) || flat_read(&dst, &mut lent) != 0 || lent != self.numbers)
        {
            return Err("what was written is read as another record".to_string());
        }
        Ok(())
    }

    fn places(&self) -> Places {
        let beside = (self.dst.len() > BYTES).then_some((0, BYTES));
        Places { written: Some((0, BYTES - 1)), beside, source: None }
    }

    fn slipped(&self, slip: Slip, outcome: &mut Outcome) -> bool {
        let (number, left) = slip.written(&self.numbers, &self.dst);
        let other = outcome.number != number || self.left().as_ref() != left;
        outcome.number = number;
        outcome.lent = vec![Buffer::Bytes(Guarded::new(&left))];
        other
    }

    fn corners(&self) -> Vec<Corner> {
        [edge::of_counts(&self.numbers), edge::of_values(&self.numbers), edge::of_length(self.dst.len())].concat()
    }

    fn past_corners(&self, number: u32) -> Vec<Corner> {
        let bad = plain::make(&self.numbers).is_err();
        [edge::past_values(&self.numbers, number), edge::past_length(self.dst.len(), bad, number)].concat()
    }

    fn smaller(&self) -> Vec<Self> {
        let simpler = numbers::simpler(&self.numbers).into_iter();
        let mut list: Vec<Self> = simpler.map(|numbers| Self { numbers, ..self.clone() }).collect();
        for len in [0, BYTES - 1, BYTES, BYTES + 1].into_iter().filter(|&len| len < self.dst.len()) {
            list.push(Self { dst: self.dst[..len].to_vec(), ..self.clone() });
        }
        list
    }

    fn tell(&self) -> String {
        format!("{}, destination {}", told(&self.numbers), listed(&self.dst))
    }
}

pub fn random(run: &mut Run, rng: &mut Rng) -> Checked {
    let len = match rng.below(12) {
        0 => rng.below(BYTES),
        1 => BYTES - 1,
        2..=5 => BYTES + rng.within(1, 40),
        _ => BYTES,
    };
    run.case(&Write { numbers: numbers::random(rng), dst: u8::noise(len, rng.next()) })
}
