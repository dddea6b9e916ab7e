//! One case: compares what our side answers and leaves with what is expected.

use crate::corner::Corner;
use crate::fault::Fault;
use crate::guard::Guarded;
use crate::limit::Limit;
use crate::mistake::Mistake;
use crate::records::slip::Slip;
use crate::rng::Word;
use std::borrow::Cow;

/// A buffer as our side left it.
pub enum Buffer {
    Bytes(Guarded<u8>),
    U64s(Guarded<u64>),
    U32s(Guarded<u32>),
    U16s(Guarded<u16>),
}

/// The numbers written through pointers, by name.
pub type Outs = Vec<(&'static str, u64)>;

/// The outcome of our side: the number, the numbers written through pointers, every lent buffer.
pub struct Outcome {
    pub number: u32,
    pub outs: Outs,
    pub lent: Vec<Buffer>,
}

/// The contents that a buffer must have afterwards.
pub enum Left<'a> {
    /// The workspace of an accepted call, whose contents are unspecified.
    Open,
    Bytes(Cow<'a, [u8]>),
    U16s(Cow<'a, [u16]>),
    /// The noise of this seed, as before the call.
    Noise(u64),
}

impl Left<'_> {
    /// Tells whether a slice of bytes holds what is expected.
    pub fn are_bytes(&self, got: &[u8]) -> bool {
        match self {
            Self::Bytes(want) => want.as_ref() == got,
            Self::Noise(seed) => u8::noise(got.len(), *seed) == got,
            Self::Open | Self::U16s(_) => false,
        }
    }

    /// Does the same for u16s.
    pub fn are_u16s(&self, got: &[u16]) -> bool {
        match self {
            Self::U16s(want) => want.as_ref() == got,
            Self::Noise(seed) => u16::noise(got.len(), *seed) == got,
            Self::Open | Self::Bytes(_) => false,
        }
    }
}

pub struct Expected<'a> {
    pub number: u32,
    pub outs: Outs,
    pub lent: Vec<Left<'a>>,
}

/// Places in the buffers of an accepted call where a fault can be planted: (buffer, byte).
#[derive(Default)]
pub struct Places {
    /// A byte that the call writes.
    pub written: Option<(usize, usize)>,
    /// A byte of a written buffer that the call has to leave alone.
    pub beside: Option<(usize, usize)>,
    /// A byte of a buffer that is only read.
    pub source: Option<(usize, usize)>,
}

pub trait Case: Clone {
    /// Returns the subject that the case counts for.
    fn name(&self) -> &'static str;
    fn ours(&self) -> Outcome;
    /// Returns what is expected, or an error if two expectations disagree.
    fn expected(&self) -> Result<Expected<'_>, String>;
    /// Checks that the safe call answers the same. It runs only if the rest agrees.
    fn safe(&self, expected: &Expected<'_>) -> Result<(), String>;
    fn places(&self) -> Places;
    /// Changes the outcome of an accepted case to that of a mistake, and tells whether the two differ.
    fn mistaken(&self, _mistake: Mistake, _outcome: &mut Outcome) -> bool {
        false
    }
    /// Changes the outcome to that of a call with this limit of the window, and tells whether the two differ.
    fn limited(&self, _limit: Limit, _outcome: &mut Outcome) -> bool {
        false
    }
    /// Changes the outcome to that of a call on records with this mistake, and tells whether the two differ.
    fn slipped(&self, _slip: Slip, _outcome: &mut Outcome) -> bool {
        false
    }
    /// Returns the corners of the domain at which the case stands, if it is accepted.
    fn corners(&self) -> Vec<Corner> {
        Vec::new()
    }
    /// Returns the corners just outside the domain at which it stands, if it is refused with this number.
    fn past_corners(&self, _number: u32) -> Vec<Corner> {
        Vec::new()
    }
    /// Returns simpler cases, for the search for the smallest one that still differs.
    fn smaller(&self) -> Vec<Self>;
    fn tell(&self) -> String;
}

/// Runs a case. Returns the first difference, or else what was expected. If a fault is given and fits the case, it is
/// planted in our side's answer, and taken out of `fault`.
pub fn held<'a, C: Case>(case: &'a C, fault: &mut Option<Fault>) -> Result<Expected<'a>, String> {
    let expected = case.expected()?;
    let mut outcome = case.ours();
    let planted = match *fault {
        None => false,
        Some(Fault::Mistaken(mistake)) => outcome.number == 0 && case.mistaken(mistake, &mut outcome),
        Some(Fault::Limited(limit)) => case.limited(limit, &mut outcome),
        Some(Fault::Slipped(slip)) => case.slipped(slip, &mut outcome),
        Some(kind) => kind.plant(&mut outcome, &case.places()),
    };
    if planted {
        *fault = None;
    }
    compare(&expected, &outcome)?;
    case.safe(&expected)?;
    Ok(expected)
}

fn compare(expected: &Expected<'_>, outcome: &Outcome) -> Result<(), String> {
    if expected.number != outcome.number {
        return Err(format!("answer {} where {} is expected", outcome.number, expected.number));
    }
    assert_eq!(expected.outs.len(), outcome.outs.len(), "each number has its expectation");
    if let Some((want, got)) = expected.outs.iter().zip(&outcome.outs).find(|(want, got)| want != got) {
        return Err(format!("{got:?} where {want:?} is expected"));
    }
    assert_eq!(expected.lent.len(), outcome.lent.len(), "each lent buffer has its expectation");
    for (index, (left, buffer)) in expected.lent.iter().zip(&outcome.lent).enumerate() {
        let whole = match buffer {
            Buffer::Bytes(bytes) => bytes.whole(),
            Buffer::U64s(u64s) => u64s.whole(),
            Buffer::U32s(u32s) => u32s.whole(),
            Buffer::U16s(u16s) => u16s.whole(),
        };
        if !whole {
            return Err(format!("something was written before or past lent buffer {index}"));
        }
        match (left, buffer) {
            (Left::Open, _) => {}
            (Left::Bytes(want), Buffer::Bytes(got)) => same(index, want, got)?,
            (Left::U16s(want), Buffer::U16s(got)) => same(index, want, got)?,
            (Left::Noise(seed), Buffer::Bytes(got)) => same(index, &u8::noise(got.len(), *seed), got)?,
            (Left::Noise(seed), Buffer::U64s(got)) => same(index, &u64::noise(got.len(), *seed), got)?,
            (Left::Noise(seed), Buffer::U32s(got)) => same(index, &u32::noise(got.len(), *seed), got)?,
            (Left::Noise(seed), Buffer::U16s(got)) => same(index, &u16::noise(got.len(), *seed), got)?,
            (Left::Bytes(_) | Left::U16s(_), _) => unreachable!("each buffer has an expectation of its kind"),
        }
    }
    Ok(())
}

fn same<T: PartialEq + std::fmt::Debug>(index: usize, want: &[T], got: &[T]) -> Result<(), String> {
    if want == got {
        return Ok(());
    }
    let at = (0..want.len()).find(|&i| want[i] != got[i]).expect("the lengths are equal");
    Err(format!("lent buffer {index} holds {:?} at {at} where {:?} is expected", got[at], want[at]))
}

/// Returns the simplest case, found by following each simplification that still differs.
pub fn smallest<C: Case>(case: &C, what: String) -> (C, String) {
    let (mut case, mut what) = (case.clone(), what);
    let mut tries = 0;
    'again: loop {
        for next in case.smaller() {
            tries += 1;
            if tries > 20_000 {
                return (case, what);
            }
            if let Err(found) = held(&next, &mut None) {
                (case, what) = (next, found);
                continue 'again;
            }
        }
        return (case, what);
    }
}

/// Lists bytes or numbers for a report, and cuts the list if they are many.
pub fn listed<T: std::fmt::Debug>(slice: &[T]) -> String {
    const MOST: usize = 400;
    if slice.len() <= MOST {
        format!("{} in all, {slice:?}", slice.len())
    } else {
        format!("{} in all, the first {:?}", slice.len(), &slice[..MOST])
    }
}
