//! Plants faults in our side's answer. The self-test checks that the comparison reports each of them.

use crate::case::{Buffer, Outcome, Places};
use crate::limit::Limit;
use crate::mistake::Mistake;
use crate::records::slip::Slip;
use Fault::*;

#[derive(Clone, Copy, Debug, PartialEq, Eq)]
pub enum Fault {
    /// One written byte of an accepted call.
    Byte,
    /// One byte beside the rows, or past the written part, of an accepted call.
    Beside,
    /// One byte of a buffer that an accepted call only reads.
    Source,
    /// The number of this name that an accepted call gives.
    Count(&'static str),
    /// The number of a refusal, changed to another one.
    Refusal,
    /// A refused call that answers as if it were accepted.
    Accepted,
    /// An accepted call that answers as if it were refused.
    Refused,
    /// The number of this name, written by a refused call.
    SpoiltCount(&'static str),
    /// A lent buffer written by a refused call.
    SpoiltBuffer(usize),
    /// One byte or number past the end of a lent buffer.
    Past(usize),
    /// What a mistake in the open tiles would leave or answer; the case works it out.
    Mistaken(Mistake),
    /// What another limit of the narrow Sauvola's window would answer; the case works it out.
    Limited(Limit),
    /// What a mistake of a call on records would leave or answer; the case works it out.
    Slipped(Slip),
}

/// Faults of a call that answers a number and is lent nothing.
pub const ANSWERING: &[Fault] = &[Refusal, Accepted, Refused];
/// Faults of a call that reads one lent buffer.
pub const ASKING: &[Fault] = &[Source, Refusal, Accepted, Refused, SpoiltBuffer(0), Past(0)];
/// Faults of a call that writes its one lent buffer.
pub const SETTING: &[Fault] = &[Byte, Beside, Refusal, Accepted, Refused, SpoiltBuffer(0), Past(0)];
/// Seven faults of every call that writes, then two of each written buffer.
const WRITING: &[Fault] = &[
    Byte,
    Beside,
    Source,
    Refusal,
    Accepted,
    Refused,
    SpoiltBuffer(0),
    SpoiltBuffer(1),
    Past(1),
    SpoiltBuffer(2),
    Past(2),
    SpoiltBuffer(3),
    Past(3),
    SpoiltBuffer(4),
    Past(4),
];
/// Faults of a call that writes both of its lent buffers.
pub const SKIPPING: &[Fault] =
    &[Byte, Beside, Refusal, Accepted, Refused, SpoiltBuffer(0), Past(0), SpoiltBuffer(1), Past(1)];

/// Returns the faults of a call that reads its first lent buffer and writes this many more, up to four.
pub const fn writing(buffers: usize) -> &'static [Fault] {
    WRITING.split_at(7 + 2 * buffers).0
}

// Faults of the numbers that a call gives, each by itself.
/// The byte, or the yes or no, of a query.
pub const VALUE: &[Fault] = &[Count("value"), SpoiltCount("value")];
pub const COMPARISONS: &[Fault] = &[Count("comparisons"), SpoiltCount("comparisons")];
pub const TILES: &[Fault] = &[Count("tiles_x"), SpoiltCount("tiles_x"), Count("tiles_y"), SpoiltCount("tiles_y")];
pub const JUDGED: &[Fault] = &[
    Count("dark"),
    SpoiltCount("dark"),
    Count("light"),
    SpoiltCount("light"),
    Count("skipped"),
    SpoiltCount("skipped"),
];

impl Fault {
    /// Changes the outcome if the fault fits this case, and tells whether it does.
    pub fn plant(self, outcome: &mut Outcome, places: &Places) -> bool {
        let accepted = outcome.number == 0;
        match self {
            Self::Byte => accepted && flip(outcome, places.written),
            Self::Beside => accepted && flip(outcome, places.beside),
            Self::Source => accepted && flip(outcome, places.source),
            Self::Count(name) => accepted && flip_count(outcome, name),
            Self::Refusal => !accepted && replace(outcome, outcome.number % 10 + 1),
            Self::Accepted => !accepted && replace(outcome, 0),
            Self::Refused => accepted && replace(outcome, 8),
            Self::SpoiltCount(name) => !accepted && flip_count(outcome, name),
            Self::SpoiltBuffer(buffer) => !accepted && flip(outcome, Some((buffer, 0))),
            Self::Past(buffer) => flip_past(outcome, buffer),
            Self::Mistaken(_) | Self::Limited(_) | Self::Slipped(_) => false,
        }
    }
}

fn flip(outcome: &mut Outcome, place: Option<(usize, usize)>) -> bool {
    let Some((buffer, at)) = place else {
        return false;
    };
    match outcome.lent.get_mut(buffer) {
        Some(Buffer::Bytes(bytes)) if at < bytes.len() => bytes[at] ^= 1,
        Some(Buffer::U64s(u64s)) if at < u64s.len() => u64s[at] ^= 1,
        Some(Buffer::U32s(u32s)) if at < u32s.len() => u32s[at] ^= 1,
        Some(Buffer::U16s(u16s)) if at < u16s.len() => u16s[at] ^= 1,
        _ => return false,
    }
    true
}

fn flip_past(outcome: &mut Outcome, buffer: usize) -> bool {
    match outcome.lent.get_mut(buffer) {
        Some(Buffer::Bytes(bytes)) => *bytes.past() ^= 1,
        Some(Buffer::U64s(u64s)) => *u64s.past() ^= 1,
        Some(Buffer::U32s(u32s)) => *u32s.past() ^= 1,
        Some(Buffer::U16s(u16s)) => *u16s.past() ^= 1,
        None => return false,
    }
    true
}

fn flip_count(outcome: &mut Outcome, name: &str) -> bool {
    let Some((_, count)) = outcome.outs.iter_mut().find(|out| out.0 == name) else {
        return false;
    };
    *count ^= 1;
    true
}

fn replace(outcome: &mut Outcome, number: u32) -> bool {
    outcome.number = number;
    true
}
