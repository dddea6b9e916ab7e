//! Compares records of readings, which the Rust does not have, with a plain computation of document 02's rules:
//! the write, the read, the making, and readings that are kept and read back.

use crate::corner::PICTURE;
use crate::fault::{self, Fault};
use crate::run::Subject;
use imgproc::reading::ReadingCounts;
use imgproc::records::{flat, Record};
use imgproc::Refusal;
use plain::{Numbers, BAD_RECORD, COMPARISONS, DARK, FLASK, HEIGHT, LIGHT, NAMES, NO_RECORD, PASS, SKIPPED, WIDTH};

pub mod edge;
mod fixed;
mod kept;
mod make;
mod numbers;
mod plain;
mod read;
pub mod slip;
mod write;

/// The seed of the noise in the destinations of fixed cases.
const NOISE: u64 = 28;
/// The lent numbers before a read of a fixed case. No good record has them.
const LENT: Numbers = [0xa1a2_a3a4, 0xb1b2, !0xc1, !0xc2, !0xc3, !0xc4, !0xc5, !0xc6];

/// Faults of a call that gives the numbers of a record, each by itself.
const NUMBERS: &[Fault] = &[
    Fault::Count("flask"),
    Fault::Count("pass"),
    Fault::Count("width"),
    Fault::Count("height"),
    Fault::Count("dark"),
    Fault::Count("light"),
    Fault::Count("skipped"),
    Fault::Count("comparisons"),
];
/// Faults of a call that is lent the numbers and is refused.
const SPOILT: &[Fault] = &[
    Fault::SpoiltCount("flask"),
    Fault::SpoiltCount("pass"),
    Fault::SpoiltCount("width"),
    Fault::SpoiltCount("height"),
    Fault::SpoiltCount("dark"),
    Fault::SpoiltCount("light"),
    Fault::SpoiltCount("skipped"),
    Fault::SpoiltCount("comparisons"),
];

/// Returns those of the numbers that are the counts of a reading.
fn counts(numbers: &Numbers) -> ReadingCounts {
    let [_, _, _, _, dark, light, skipped, comparisons] = *numbers;
    ReadingCounts { dark, light, skipped, comparisons }
}

/// Calls C's write. The flask and the pass are numbers of its types.
fn flat_write(numbers: &Numbers, destination: &mut [u8]) -> u32 {
    let [flask, pass, width, height, ..] = *numbers;
    let (width, height) = (width as usize, height as usize);
    flat::record_write(flask as u32, pass as u16, width, height, counts(numbers), destination)
}

/// Calls C's read, which is lent each of the numbers.
fn flat_read(source: &[u8], numbers: &mut Numbers) -> u32 {
    let (mut flask, mut pass) = (numbers[FLASK] as u32, numbers[PASS] as u16);
    let (mut width, mut height) = (numbers[WIDTH] as usize, numbers[HEIGHT] as usize);
    let mut counts = counts(numbers);
    let number = flat::record_read(source, &mut flask, &mut pass, &mut width, &mut height, &mut counts);
    let ReadingCounts { dark, light, skipped, comparisons } = counts;
    *numbers = [flask.into(), pass.into(), width as u64, height as u64, dark, light, skipped, comparisons];
    number
}

/// Returns the binding's record of the numbers if each fits its field.
fn record(numbers: &Numbers) -> Option<Record> {
    Some(Record {
        flask: numbers[FLASK].try_into().ok()?,
        pass: numbers[PASS].try_into().ok()?,
        width: numbers[WIDTH].try_into().ok()?,
        height: numbers[HEIGHT].try_into().ok()?,
        dark: numbers[DARK].try_into().ok()?,
        light: numbers[LIGHT].try_into().ok()?,
        skipped: numbers[SKIPPED].try_into().ok()?,
        comparisons: numbers[COMPARISONS].try_into().ok()?,
    })
}

/// Returns the numbers of the binding's record.
fn numbers_of(record: &Record) -> Numbers {
    let Record { flask, pass, width, height, dark, light, skipped, comparisons } = *record;
    let [width, height] = [width, height].map(u64::from);
    let [dark, light, skipped, comparisons] = [dark, light, skipped, comparisons].map(u64::from);
    [flask.into(), pass.into(), width, height, dark, light, skipped, comparisons]
}

/// Returns the binding's kind of a refusal's number, or `None` for 0.
fn kind(number: u32) -> Option<Refusal> {
    match number {
        0 => None,
        NO_RECORD => Some(Refusal::NoRecord),
        BAD_RECORD => Some(Refusal::BadRecord),
        other => unreachable!("no call on records is refused with {other}"),
    }
}

/// Lists the numbers by their names for a report.
fn told(numbers: &Numbers) -> String {
    let list: Vec<String> = NAMES.iter().zip(numbers).map(|(name, number)| format!("{name} {number}")).collect();
    list.join(", ")
}

pub const SUBJECTS: &[Subject] = &[
    Subject {
        name: "record_write",
        refuses: &[NO_RECORD, BAD_RECORD],
        corners: &[edge::COUNTS, edge::VALUES, edge::WIDE, edge::LENGTH],
        faults: &[fault::SETTING, slip::VALUES, slip::WIDE, slip::SLICE, slip::WRITING],
        round: 150_000,
        random: write::random,
        fixed: fixed::writes,
    },
    Subject {
        name: "record_read",
        refuses: &[NO_RECORD, BAD_RECORD],
        corners: &[edge::COUNTS, edge::VALUES, edge::LENGTH, edge::MARKS],
        faults: &[fault::ASKING, NUMBERS, SPOILT, slip::VALUES, slip::SLICE, slip::READING],
        round: 150_000,
        random: read::random,
        fixed: fixed::reads,
    },
    Subject {
        name: "record_of_reading",
        refuses: &[BAD_RECORD],
        corners: &[edge::COUNTS, edge::VALUES, edge::WIDE],
        faults: &[fault::ANSWERING, NUMBERS, slip::VALUES, slip::WIDE],
        round: 150_000,
        random: make::random,
        fixed: fixed::makes,
    },
    Subject {
        name: "kept_reading",
        refuses: &[NO_RECORD, BAD_RECORD],
        corners: &[PICTURE, edge::COUNTS],
        faults: &[fault::SETTING, NUMBERS],
        round: 4_000,
        random: kept::random,
        fixed: kept::fixed,
    },
];
