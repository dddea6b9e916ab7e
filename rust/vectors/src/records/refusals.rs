//! Makes the list of refusals of the calls on records: each condition alone, each pair of them, and each limit.

use super::{
    at, each, make, plain, read, sized, told, with, write, BY_HAND, COMPARISONS, DARK, HEIGHT, KEEPS, LIGHT, MAKE,
    PLAIN, READ, SHORT, SKIPPED, VALUES, WIDTH, WORKED, WORKED_BYTES, WRITE,
};
use crate::conditions::{bad, combined, condition, lent, short, Condition};
use crate::list::{Line, List, FROM, TO};
use plain::RECORD_BYTES;

/// The largest numbers of 32 and of 64 bits.
const FAR: u64 = u32::MAX as u64;
const FARTHEST: u64 = u64::MAX;

/// Returns the conditions of a record's numbers. Any two of the counts together are too many still.
fn values() -> Vec<Condition> {
    vec![
        bad(14, "no width", at(WIDTH), 0),
        bad(14, "a width above the limit", at(WIDTH), 4097),
        bad(14, "no height", at(HEIGHT), 0),
        bad(14, "a height above the limit", at(HEIGHT), 4097),
        bad(14, "a dark pixel too many", at(DARK), 13),
        bad(14, "a light pixel too many", at(LIGHT), 21),
        bad(14, "a skipped pixel too many", at(SKIPPED), 46),
    ]
}

/// Returns the condition that bytes which are read are others.
fn spelled(number: u64, what: &str, place: usize, bytes: &'static [u8]) -> Condition {
    condition(number, what, move |line| {
        let mut line = line.clone();
        line.from[place..place + bytes.len()].copy_from_slice(bytes);
        line
    })
}

/// Returns the conditions of bytes that are read.
fn of_bytes() -> Vec<Condition> {
    let cut = |line: &Line| read(line.from[..line.from.len() - 1].to_vec());
    vec![
        condition(13, "27 bytes", cut),
        spelled(13, "another first byte of the mark", 0, &[0x53]),
        spelled(13, "another second byte of the mark", 1, &[0x32]),
        spelled(14, "no width", 8, &[0, 0]),
        spelled(14, "a width above the limit", 8, &[0x10, 0x01]),
        spelled(14, "no height", 10, &[0, 0]),
        spelled(14, "a height above the limit", 10, &[0x10, 0x01]),
        spelled(14, "a dark pixel too many", 15, &[13]),
        spelled(14, "a light pixel too many", 19, &[21]),
        spelled(14, "a skipped pixel too many", 23, &[46]),
    ]
}

/// Writes each condition alone and each pair, of each call.
fn conditions(l: &mut List) {
    l.comment("call 24");
    let writing = [vec![short(13, "the destination", TO)], values()].into_iter().flatten();
    combined(l, &write(WORKED, RECORD_BYTES), &writing.collect::<Vec<Condition>>(), told);
    l.comment("call 25");
    combined(l, &read(WORKED_BYTES.to_vec()), &of_bytes(), told);
    l.comment("call 26");
    let mut making = values();
    making.push(bad(14, "comparisons of more than 32 bits", at(COMPARISONS), FAR + 1));
    combined(l, &make(WORKED), &making, told);
}

/// Writes all calls with sides at their limits, whose counts add up to all pixels.
fn sides(l: &mut List) {
    l.comment("sides at their limits, with counts that add up");
    for (side, number) in [(0, 14), (1, 0), (4095, 0), (4096, 0), (4097, 14), (32_768, 14), (65_535, 14)] {
        each(l, sized(side, 1, [0, side, 0]), number);
        each(l, sized(1, side, [side, 0, 0]), number);
    }
    for (width, height) in [(0, 0), (4097, 4096), (4096, 4097), (65_535, 65_535)] {
        each(l, sized(width, height, [0, 0, width * height]), 14);
    }
}

/// Writes all calls with counts at their limits.
fn counts(l: &mut List) {
    l.comment("counts that add up in other ways, one too few and one too many, and none");
    for (counts, number) in [
        ([12, 20, 45], 0),
        ([77, 0, 0], 0),
        ([0, 77, 0], 0),
        ([0, 0, 77], 0),
        ([11, 20, 45], 14),
        ([12, 19, 45], 14),
        ([12, 20, 44], 14),
        ([13, 20, 45], 14),
        ([12, 21, 45], 14),
        ([12, 20, 46], 14),
        ([76, 0, 0], 14),
        ([0, 78, 0], 14),
        ([0, 0, 0], 14),
        ([77, 77, 77], 14),
    ] {
        each(l, sized(7, 11, counts), number);
    }
    l.comment("counts whose sum would be right in 16 bits or in 32, and products that would be in 16");
    let half = 1 << 31;
    for counts in [
        [65_536 + 12, 20, 45],
        [12, 20 << 16 | 20, 45],
        [12, 20, 65_536 + 45],
        [FAR, 1, 77],
        [1, 77, FAR],
        [77, FAR, 1],
        [half, half, 77],
        [half, 77, half],
        [77, half, half],
        [FAR, FAR, 79],
        [FAR, 79, FAR],
        [79, FAR, FAR],
        [FAR, FAR, FAR],
    ] {
        each(l, sized(7, 11, counts), 14);
    }
    for (width, height) in [(256, 256), (4096, 16), (4096, 4096)] {
        each(l, sized(width, height, [0, 0, 0]), 14);
    }
    each(l, sized(259, 257, [1000, 20, 7]), 14);
}

/// Writes numbers that do not fit a record, and numbers that would be right in fewer bits.
fn wide(l: &mut List) {
    l.comment("call 26: counts whose sum would be right in 32 or in 64 bits");
    let (beyond, half) = (FAR + 1, 1 << 63);
    for counts in [
        [beyond + 12, 20, 45],
        [12, beyond + 20, 45],
        [12, 20, beyond + 45],
        [FARTHEST, 1, 77],
        [1, 77, FARTHEST],
        [77, FARTHEST, 1],
        [FARTHEST, 77, 1],
        [half, half, 77],
        [half, 77, half],
        [77, half, half],
        [FARTHEST, FARTHEST, 79],
        [FARTHEST, 79, FARTHEST],
        [79, FARTHEST, FARTHEST],
        [FARTHEST, FARTHEST, FARTHEST],
        [FARTHEST, 0, 0],
        [0, FARTHEST, 0],
        [0, 0, FARTHEST],
    ] {
        told(l, &make(sized(7, 11, counts)), 14);
    }
    l.comment("sides that would be good in 16 or in 32 bits, with the counts of either");
    for beyond in [1 << 16, 1 << 32] {
        for (width, height) in [(beyond + 7, 11), (7, beyond + 11)] {
            told(l, &make(sized(width, height, [12, 20, 45])), 14);
            told(l, &make(sized(width, height, [12, 20, width * height - 32])), 14);
        }
        told(l, &make(sized(beyond + 5, 11, [10, 20, 25])), 14);
        told(l, &make(sized(beyond, beyond, [0, 0, 0])), 14);
        told(l, &make(sized(beyond + 1, 1, [1, 0, 0])), 14);
        told(l, &make(sized(1, beyond, [0, beyond, 0])), 14);
    }
    l.comment("sides whose product would be right in 64 bits, and the largest");
    for (width, height, counts) in [
        (FARTHEST - 6, FARTHEST - 10, [12, 20, 45]),
        (FARTHEST, FARTHEST, [1, 0, 0]),
        (1 << 62, 4, [0, 0, 0]),
        (1 << 63, 2, [0, 0, 0]),
        (FARTHEST, 1, [FARTHEST, 0, 0]),
        (1, FARTHEST, [0, 0, FARTHEST]),
        (FARTHEST, 1, [0, 0, 0]),
    ] {
        told(l, &make(sized(width, height, counts)), 14);
    }
    l.comment("comparisons at their limit");
    for (comparisons, number) in
        [(0, 0), (1, 0), (FAR - 1, 0), (FAR, 0), (FAR + 1, 14), (FAR + 6, 14), (1 << 63, 14), (FARTHEST, 14)]
    {
        told(l, &make(with(WORKED, &[(COMPARISONS, comparisons)])), number);
    }
}

/// Writes reads of bytes that begin with another mark, with good numbers and with bad ones.
fn marks(l: &mut List) {
    l.comment("call 25: other marks, with good numbers and with a width of 0");
    let [first, second] = [0x52, 0x31];
    let firsts = [0x00, 0x51, 0x53, 0x72, 0x31, 0xff].map(|other| [other, second]);
    let seconds = [0x00, 0x30, 0x32, 0x33, 0x52, 0xff].map(|other| [first, other]);
    let both = [[second, first], [0x00, 0x00], [0x53, 0x30], [0xff, 0xff]];
    for mark in [&firsts[..], &seconds[..], &both[..]].concat() {
        for fields in [WORKED, with(WORKED, &[(WIDTH, 0)])] {
            told(l, &read([&mark[..], &plain::bytes(&fields)[2..]].concat()), 13);
        }
    }
    l.comment("a byte before the mark, the mark behind the numbers, and noise");
    told(l, &read([&[0], &WORKED_BYTES[..]].concat()), 13);
    told(l, &read([&WORKED_BYTES[2..], &WORKED_BYTES[..2]].concat()), 13);
    for length in [RECORD_BYTES as u64, 300] {
        l.refused(&lent(&read(vec![]), FROM, length), 13);
    }
}

pub fn refusals() -> List {
    let head = "Refusals of records:";
    let mut list = List::new("record_refusals", &[head, WRITE, READ, MAKE, SHORT, VALUES, BY_HAND, PLAIN, KEEPS]);
    let l = &mut list;
    conditions(l);
    sides(l);
    counts(l);
    wide(l);
    marks(l);
    list
}
