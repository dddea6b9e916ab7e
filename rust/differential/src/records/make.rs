//! Compares the record that the binding makes of a reading's numbers.

use super::edge;
use super::numbers;
use super::plain::{self, Numbers, BYTES, FLASK, HEIGHT, PASS, WIDTH};
use super::read::named;
use super::slip::Slip;
use super::{counts, flat_write, kind, numbers_of, told};
use crate::case::{Case, Expected, Outcome, Places};
use crate::corner::Corner;
use crate::layouts::EDGES;
use crate::rng::Rng;
use crate::run::{Checked, Run};
use imgproc::records::Record;
use imgproc::{Geometry, Refusal};

#[derive(Clone)]
pub struct Make {
    pub numbers: Numbers,
    /// The stride of the geometry, which no record holds.
    pub stride: usize,
}

impl Make {
    fn made(&self) -> Result<Record, Refusal> {
        let numbers = &self.numbers;
        let geometry =
            Geometry { width: numbers[WIDTH] as usize, height: numbers[HEIGHT] as usize, stride: self.stride };
        Record::of_reading(numbers[FLASK] as u32, numbers[PASS] as u16, geometry, counts(numbers))
    }
}

/// Returns the number of an answer and the numbers of its record; zeros if it is refused.
pub fn answered(answer: &Result<Record, Refusal>) -> (u32, Numbers) {
    match answer {
        Ok(record) => (0, numbers_of(record)),
        Err(refusal) => (refusal.number(), [0; 8]),
    }
}

impl Case for Make {
    fn name(&self) -> &'static str {
        "record_of_reading"
    }

    fn ours(&self) -> Outcome {
        let (number, numbers) = answered(&self.made());
        Outcome { number, outs: named(&numbers), lent: vec![] }
    }

    fn expected(&self) -> Result<Expected<'_>, String> {
        let (number, numbers) = match plain::make(&self.numbers) {
            Ok(numbers) => (0, numbers),
            Err(number) => (number, [0; 8]),
        };
        Ok(Expected { number, outs: named(&numbers), lent: vec![] })
    }

    /// Checks that C's write answers the same, and that the record is written as the plain bytes and read back.
    fn safe(&self, expected: &Expected<'_>) -> Result<(), String> {
        let mut by_c = [0; BYTES];
        let number = flat_write(&self.numbers, &mut by_c);
        let answer = self.made();
        if number != expected.number || answer.err() != kind(expected.number) {
            return Err(format!("the write answers {number}, the safe call {answer:?}"));
        }
        let mut bytes = [0; BYTES];
        match answer {
            Err(_) if by_c == bytes => Ok(()),
            Ok(record)
                if record.write(&mut bytes).is_ok()
                    && bytes[..] == plain::bytes(&self.numbers)
                    && by_c == bytes
                    && Record::read(&bytes) == Ok(record) =>
            {
                Ok(())
            }
            _ => Err("the record is written or read otherwise".to_string()),
        }
    }

    fn places(&self) -> Places {
        Places::default()
    }

    fn slipped(&self, slip: Slip, outcome: &mut Outcome) -> bool {
        let (number, numbers) = match slip.made(&self.numbers) {
            Ok(numbers) => (0, numbers),
            Err(number) => (number, [0; 8]),
        };
        let outs = named(&numbers);
        let other = outcome.number != number || outcome.outs != outs;
        (outcome.number, outcome.outs) = (number, outs);
        other
    }

    fn corners(&self) -> Vec<Corner> {
        [edge::of_counts(&self.numbers), edge::of_values(&self.numbers)].concat()
    }

    fn past_corners(&self, number: u32) -> Vec<Corner> {
        edge::past_values(&self.numbers, number)
    }

    fn smaller(&self) -> Vec<Self> {
        let mut list: Vec<Self> =
            numbers::simpler(&self.numbers).into_iter().map(|numbers| Self { numbers, ..*self }).collect();
        list.extend((self.stride > 0).then_some(Self { stride: 0, ..*self }));
        list
    }

    fn tell(&self) -> String {
        format!("{}, stride {}", told(&self.numbers), self.stride)
    }
}

pub fn random(run: &mut Run, rng: &mut Rng) -> Checked {
    let numbers = numbers::random(rng);
    let stride = if rng.one_in(2) { numbers[WIDTH] as usize } else { rng.pick(&EDGES) };
    run.case(&Make { numbers, stride })
}
