//! Makes the lists of one record at every length, with every bit changed, and with every two numbers at their extremes.

use super::{
    make, plain, read, told, with, write, ANY, BY_HAND, COMPARISONS, DARK, HEIGHT, KEEPS, LIGHT, MAKE, PLAIN, READ,
    SHORT, SKIPPED, VALUES, WIDTH, WORKED, WORKED_BYTES, WRITE,
};
use crate::list::List;
use crate::picture::noise;
use plain::{Fields, RECORD_BYTES};
use std::collections::BTreeSet;

/// Returns the number of a call that is refused with 13 below 28 bytes, and answered with another number from there on.
fn from_28(length: usize, number: u64) -> u64 {
    if length < RECORD_BYTES {
        13
    } else {
        number
    }
}

pub fn lengths() -> List {
    let head = "Records in slices of every length:";
    let mut list = List::new("record_lengths", &[head, WRITE, READ, SHORT, VALUES, BY_HAND, PLAIN, KEEPS]);
    let l = &mut list;
    let flawed = with(WORKED, &[(WIDTH, 0)]);
    let longest = 300;
    let after = noise(longest - RECORD_BYTES, 91);
    let each = |l: &mut List, length: usize| {
        for (fields, number) in [(WORKED, 0), (flawed, 14)] {
            told(l, &write(fields, length), from_28(length, number));
            let bytes = [plain::bytes(&fields), after.clone()].concat();
            told(l, &read(bytes[..length].to_vec()), from_28(length, number));
        }
    };
    l.comment("a good record, and one with a width of 0, in 0 to 40 bytes");
    (0..=40).for_each(|length| each(l, length));
    l.comment("lengths around those that would be 0, 27 and 28 in 8 bits");
    [255, 256, 257, 283, 284, longest].into_iter().for_each(|length| each(l, length));
    l.comment("lengths that would be those in 16 bits; bytes of so long a slice are not listed after a call");
    [65_536, 65_563, 65_564].into_iter().for_each(|length| told(l, &write(WORKED, length), 0));
    list
}

pub fn bits() -> List {
    let head = "One record, which is read with each bit of its 28 bytes changed alone:";
    let answered = "call 25, which answers flask pass width height dark light skipped comparisons;";
    let mut list = List::new("record_bits", &[head, answered, SHORT, VALUES, BY_HAND, PLAIN, KEEPS]);
    let l = &mut list;
    // The bytes of each part, and the number of a read in which one of their bits is another.
    for (what, places, number) in [
        ("the mark", 0..2, 13),
        ("the flask", 2..6, 0),
        ("the pass", 6..8, 0),
        ("the sides", 8..12, 14),
        ("the counts", 12..24, 14),
        ("the comparisons", 24..28, 0),
    ] {
        l.comment(what);
        for (place, bit) in places.flat_map(|place| (0..8).map(move |bit| (place, bit))) {
            let mut bytes = WORKED_BYTES.to_vec();
            bytes[place] ^= 1 << bit;
            told(l, &read(bytes), number);
        }
    }
    list
}

/// The largest numbers that fit a record, and the largest that the call which makes one takes.
const FIT: [u64; 8] = {
    let [long, short] = [u32::MAX as u64, u16::MAX as u64];
    [long, short, short, short, long, long, long, long]
};
const TAKEN: [u64; 8] = {
    let far = u64::MAX;
    [FIT[0], FIT[1], far, far, far, far, far, far]
};

/// Writes the calls of a record with two numbers at their ends, 0 or the largest.
fn at_ends(l: &mut List, first: usize, second: usize) {
    // With a side or a count at an end the counts do not add up.
    let number = if ANY.contains(&first) && ANY.contains(&second) { 0 } else { 14 };
    for (one, other) in [(false, false), (false, true), (true, false), (true, true)] {
        let ends = |largest: [u64; 8]| {
            let end = |field: usize, is_largest: bool| (field, if is_largest { largest[field] } else { 0 });
            with(WORKED, &[end(first, one), end(second, other)])
        };
        let fields = ends(FIT);
        told(l, &write(fields, RECORD_BYTES), number);
        told(l, &read(plain::bytes(&fields)), number);
        let numbers = ends(TAKEN);
        let fits = numbers[COMPARISONS] <= FIT[COMPARISONS];
        told(l, &make(numbers), if fits { number } else { 14 });
    }
}

/// Returns the extremes of a number: of a side also those around its limit, of a count those around the area.
fn extremes(field: usize, area: u64) -> Vec<u64> {
    match field {
        WIDTH | HEIGHT => vec![0, 1, 4096, 4097, FIT[field]],
        DARK | LIGHT | SKIPPED => vec![0, 1, area.saturating_sub(1), area, FIT[field]],
        _ => vec![0, 1, FIT[field]],
    }
}

fn area(fields: &Fields) -> u64 {
    fields[WIDTH] * fields[HEIGHT]
}

/// Returns the records with two numbers at their extremes and the others as in the worked record.
fn at_extremes(first: usize, second: usize) -> Vec<Fields> {
    let each = |fields: Fields, field: usize| {
        extremes(field, area(&fields)).into_iter().map(move |extreme| with(fields, &[(field, extreme)]))
    };
    each(WORKED, first).flat_map(|fields| each(fields, second)).collect()
}

/// Fills up the counts that are none of two fields, so that all add up to the area, or to the area in 32 bits where
/// those two are more than it. Returns the record and the number of its calls.
fn filled(mut fields: Fields, first: usize, second: usize) -> (Fields, u64) {
    let (fixed, free): (Vec<usize>, Vec<usize>) =
        [DARK, LIGHT, SKIPPED].into_iter().partition(|count| [first, second].contains(count));
    let taken: u64 = fixed.iter().map(|&count| fields[count]).sum();
    let mut rest = area(&fields).wrapping_sub(taken) & FIT[DARK];
    let (last, others) = free.split_last().expect("two fields leave a count");
    for &count in others {
        fields[count] = rest / 4;
        rest -= rest / 4;
    }
    fields[*last] = rest;
    let bad_side = [WIDTH, HEIGHT].iter().any(|&side| [0, 4097, FIT[side]].contains(&fields[side]));
    (fields, if bad_side || taken > area(&fields) { 14 } else { 0 })
}

pub fn pairs() -> List {
    let head = "One record with two of its numbers at their extremes:";
    let mut list = List::new("record_pairs", &[head, WRITE, READ, MAKE, VALUES, BY_HAND, PLAIN, KEEPS]);
    let l = &mut list;
    let pairs = || (0..8).flat_map(|second| (0..second).map(move |first| (first, second)));
    l.comment("0 or the largest, which call 26 takes in 64 bits");
    pairs().for_each(|(first, second)| at_ends(l, first, second));
    l.comment("also 1, the limits of a side, the area and one less; the other counts are filled up to the area, or to");
    l.comment("the area in 32 bits where the two are more; written and read by turns, no record twice");
    let mut listed = BTreeSet::new();
    for (first, second) in pairs() {
        for (fields, number) in at_extremes(first, second).into_iter().map(|fields| filled(fields, first, second)) {
            if listed.insert(fields) {
                let written = listed.len() % 2 == 1;
                let line = if written { write(fields, RECORD_BYTES) } else { read(plain::bytes(&fields)) };
                told(l, &line, number);
            }
        }
    }
    list
}
