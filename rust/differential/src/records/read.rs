//! Compares the read of a record, through C with lent numbers and through the binding.

use super::edge;
use super::numbers;
use super::plain::{self, Numbers, BYTES, MARK, NAMES};
use super::slip::Slip;
use super::{flat_read, kind, record, told, LENT};
use crate::case::{listed, Buffer, Case, Expected, Left, Outcome, Outs, Places};
use crate::corner::Corner;
use crate::guard::Guarded;
use crate::rng::{Rng, Word};
use crate::run::{Checked, Run};
use imgproc::records::Record;
use std::borrow::Cow;

#[derive(Clone)]
pub struct Read {
    pub source: Vec<u8>,
    /// The lent numbers before the call.
    pub lent: Numbers,
}

/// Names the numbers that a call gives.
pub fn named(numbers: &Numbers) -> Outs {
    (0..8).map(|place| (NAMES[place], numbers[place])).collect()
}

impl Read {
    pub fn new(source: Vec<u8>) -> Self {
        Self { source, lent: LENT }
    }

    /// Returns the numbers of a source that has zeros for the bytes that are missing.
    fn numbers(&self) -> Numbers {
        let mut bytes = self.source.clone();
        bytes.resize(BYTES.max(bytes.len()), 0);
        plain::numbers(&bytes)
    }
}

impl Case for Read {
    fn name(&self) -> &'static str {
        "record_read"
    }

    fn ours(&self) -> Outcome {
        let source = Guarded::new(&self.source);
        let mut lent = self.lent;
        let number = flat_read(&source, &mut lent);
        Outcome { number, outs: named(&lent), lent: vec![Buffer::Bytes(source)] }
    }

    fn expected(&self) -> Result<Expected<'_>, String> {
        let (number, numbers) = match plain::read(&self.source) {
            Ok(numbers) => (0, numbers),
            Err(number) => (number, self.lent),
        };
        let source = Left::Bytes(Cow::Borrowed(self.source.as_slice()));
        Ok(Expected { number, outs: named(&numbers), lent: vec![source] })
    }

    /// Reads by the safe call. Then writes an accepted record, which has to give the first bytes of the source.
    fn safe(&self, expected: &Expected<'_>) -> Result<(), String> {
        let answer = Record::read(&self.source);
        let want = match kind(expected.number) {
            None => Ok(record(&self.numbers()).expect("what stands in fields fits them")),
            Some(refusal) => Err(refusal),
        };
        if answer != want {
            return Err(format!("the safe call answers {answer:?} where {want:?} is expected"));
        }
        let mut bytes = [0; BYTES];
        if answer.is_ok_and(|record| record.write(&mut bytes).is_err() || bytes != self.source[..BYTES]) {
            return Err("what was read is written as other bytes".to_string());
        }
        Ok(())
    }

    fn places(&self) -> Places {
        Places { source: Some((0, self.source.len() / 2)), ..Places::default() }
    }

    fn slipped(&self, slip: Slip, outcome: &mut Outcome) -> bool {
        let (number, numbers) = slip.taken(&self.source, &self.lent);
        let outs = named(&numbers);
        let other = outcome.number != number || outcome.outs != outs;
        (outcome.number, outcome.outs) = (number, outs);
        other
    }

    fn corners(&self) -> Vec<Corner> {
        let numbers = self.numbers();
        [edge::of_counts(&numbers), edge::of_values(&numbers), edge::of_length(self.source.len())].concat()
    }

    fn past_corners(&self, number: u32) -> Vec<Corner> {
        let numbers = self.numbers();
        let (len, bad) = (self.source.len(), plain::bad(&numbers));
        if len < BYTES {
            return edge::past_length(len, bad, number);
        }
        [edge::past_values(&numbers, number), edge::past_mark([self.source[0], self.source[1]], bad)].concat()
    }

    fn smaller(&self) -> Vec<Self> {
        let mut list = Vec::new();
        for len in [0, 1, 2, BYTES - 1, BYTES].into_iter().filter(|&len| len < self.source.len()) {
            list.push(Self { source: self.source[..len].to_vec(), ..self.clone() });
        }
        if self.source.len() >= BYTES {
            for numbers in numbers::simpler(&self.numbers()) {
                let mut next = self.clone();
                next.source[MARK.len()..BYTES].copy_from_slice(&plain::bytes(&numbers)[MARK.len()..]);
                list.push(next);
            }
        }
        list
    }

    fn tell(&self) -> String {
        format!("source {}\nthe lent numbers before: {}", listed(&self.source), told(&self.lent))
    }
}

/// Returns a mark that is wrong in one byte or in both, or any.
fn another_mark(rng: &mut Rng) -> [u8; 2] {
    let [first, second] = MARK;
    match rng.below(5) {
        0 => [first ^ 1 << rng.below(8), second],
        1 => [first, second ^ 1 << rng.below(8)],
        2 => [second, first],
        3 => rng.pick(&[[first, rng.clone().byte()], [rng.clone().byte(), second], [0, 0]]),
        _ => [rng.byte(), rng.byte()],
    }
}

pub fn random(run: &mut Run, rng: &mut Rng) -> Checked {
    let mut source = plain::bytes(&numbers::random(rng));
    if rng.one_in(2) {
        source.extend(u8::noise(rng.within(1, 40), rng.next()));
    }
    match rng.below(24) {
        0 => source.truncate(rng.below(BYTES)),
        1 => source.truncate(BYTES - 1),
        2..=3 => source[..2].copy_from_slice(&another_mark(rng)),
        4..=6 => source[rng.below(BYTES)] ^= 1 << rng.below(8),
        7 => source = u8::noise(rng.below(60), rng.next()),
        8 => source[MARK.len()..BYTES].copy_from_slice(&u8::noise(BYTES - MARK.len(), rng.next())),
        _ => {}
    }
    let noise = rng.next();
    let mut lent = LENT.map(|number| number ^ noise);
    (lent[0], lent[1]) = (u64::from(lent[0] as u32), u64::from(lent[1] as u16));
    run.case(&Read { source, lent })
}
