//! Makes the lists of records: calls 24 (write), 25 (read) and 26 (make), and 27, which keeps a reading. Document 02
//! says which are refused. Those numbers are written here by hand, and the plain computation in records/plain.rs has to
//! give the same; bytes and values come from that computation alone.

mod changes;
pub mod plain;
mod readings;
mod refusals;

use crate::asked::{MAKE_RECORD, READ_RECORD, WRITE_RECORD};
use crate::list::{Line, List};
use crate::picture::{noise, states};
pub use changes::{bits, lengths, pairs};
use plain::{Fields, RECORD_BYTES};
pub use readings::readings;
pub use refusals::refusals;

/// A record whose numbers all differ, and its bytes, both written by hand.
const WORKED: Fields = [0x0102_0304, 0x0506, 7, 11, 12, 20, 45, 0xA1B2_C3D4];
const WORKED_BYTES: [u8; RECORD_BYTES] = [
    0x52, 0x31, 0x01, 0x02, 0x03, 0x04, 0x05, 0x06, 0x00, 0x07, 0x00, 0x0B, 0x00, 0x00, 0x00, 0x0C, 0x00, 0x00, 0x00,
    0x14, 0x00, 0x00, 0x00, 0x2D, 0xA1, 0xB2, 0xC3, 0xD4,
];

/// Another by hand, of a picture of 4,000 by 3,001: no side and no count fits one byte, and all bytes but zeros differ.
const LARGER: Fields = [0xF0E1_D2C3, 0xB4A5, 4000, 3001, 1_193_046, 7_903_932, 2_907_022, 0x9687_4B69];
const LARGER_BYTES: [u8; RECORD_BYTES] = [
    0x52, 0x31, 0xF0, 0xE1, 0xD2, 0xC3, 0xB4, 0xA5, 0x0F, 0xA0, 0x0B, 0xB9, 0x00, 0x12, 0x34, 0x56, 0x00, 0x78, 0x9A,
    0xBC, 0x00, 0x2C, 0x5B, 0x8E, 0x96, 0x87, 0x4B, 0x69,
];

/// The places of a record's numbers, and of those that may have any value.
const WIDTH: usize = 2;
const HEIGHT: usize = 3;
const DARK: usize = 4;
const LIGHT: usize = 5;
const SKIPPED: usize = 6;
const COMPARISONS: usize = 7;
const ANY: [usize; 3] = [0, 1, COMPARISONS];

/// The place of a record's number among those of a call.
const fn at(field: usize) -> usize {
    field + 1
}

/// What the numbers of the calls are.
const WRITE: &str = "call 24 (write): flask pass width height dark light skipped comparisons;";
const READ: &str = "call 25 (read), which answers these eight numbers;";
const MAKE: &str = "call 26 (make), which takes and answers them.";
const SHORT: &str = "13 under 28 bytes or another mark;";
const VALUES: &str = "14 a side outside 1..4096, counts that do not add up to all pixels, or a number that does not \
    fit its field; 0 accepted.";
const BY_HAND: &str = "What is refused, and the number, is document 02's; of several conditions the earliest counts.";
const PLAIN: &str = "A plain computation gives the bytes and the values (rust/vectors/src/records/plain.rs).";
const KEEPS: &str = "A refused call leaves every slice as it was.";

/// Changes some numbers of a record.
fn with(mut fields: Fields, changes: &[(usize, u64)]) -> Fields {
    changes.iter().for_each(|&(field, number)| fields[field] = number);
    fields
}

/// Changes the sides and the counts of the worked record.
fn sized(width: u64, height: u64, [dark, light, skipped]: [u64; 3]) -> Fields {
    with(WORKED, &[(WIDTH, width), (HEIGHT, height), (DARK, dark), (LIGHT, light), (SKIPPED, skipped)])
}

/// Writes a record to a slice of a length.
fn write(fields: Fields, length: usize) -> Line {
    assert!(plain::fits(&fields), "a record's numbers: {fields:?}");
    let numbers = [&[WRITE_RECORD], &fields[..]].concat();
    Line { numbers, lengths: [0, length as u64, 0, 0, 0, 0, 0], ..Line::default() }
}

/// Reads the record of some bytes.
fn read(bytes: Vec<u8>) -> Line {
    Line { numbers: vec![READ_RECORD], lengths: [bytes.len() as u64, 0, 0, 0, 0, 0, 0], from: bytes, ..Line::default() }
}

/// Makes the record of some numbers, which may not fit one.
fn make(numbers: Fields) -> Line {
    Line { numbers: [&[MAKE_RECORD], &numbers[..]].concat(), ..Line::default() }
}

/// Writes a call and its number, which the plain computation has to give too.
fn told(l: &mut List, line: &Line, number: u64) {
    assert_eq!(plain::number(line), number, "{:?} {:?}", line.numbers, line.from);
    l.answered(line, number);
}

/// Writes the three calls of one record. If its numbers are refused, they are spelled out for the reader all the same.
fn each(l: &mut List, fields: Fields, number: u64) {
    told(l, &write(fields, RECORD_BYTES), number);
    told(l, &read(plain::bytes(&fields)), number);
    told(l, &make(fields), number);
}

/// Writes the calls of a record whose bytes are written by hand. Behind them stand other bytes, once another record.
fn by_hand(l: &mut List, fields: Fields, bytes: [u8; RECORD_BYTES]) {
    for length in [RECORD_BYTES, RECORD_BYTES + 1, 2 * RECORD_BYTES, 300] {
        let after = noise(length - RECORD_BYTES, length as u32);
        assert_eq!(l.accepted(&write(fields, length)).left.to[..RECORD_BYTES], bytes);
        assert_eq!(l.accepted(&read([&bytes[..], &after].concat())).values, fields);
    }
    let second = plain::bytes(&sized(11, 7, [12, 20, 45]));
    assert_eq!(l.accepted(&read([&bytes[..], &second].concat())).values, fields);
    assert_eq!(l.accepted(&make(fields)).values, fields);
}

/// Returns a record that looks random.
fn any(seed: u32) -> Fields {
    let mut states = states(seed);
    let mut next = || u64::from(states.next().expect("without end"));
    let mut below = |limit: u64| (next() << 32 | next()) / 4093 % limit;
    let [flask, pass, comparisons] = [1 << 32, 1 << 16, 1 << 32].map(&mut below);
    let [width, height] = [4096, 4096].map(|side| 1 + below(side));
    let dark = below(width * height + 1);
    let light = below(width * height - dark + 1);
    [flask, pass, width, height, dark, light, width * height - dark - light, comparisons]
}

pub fn records() -> List {
    let head = "Records that are written, read and made:";
    let mut list = List::new("records", &[head, WRITE, READ, MAKE, PLAIN]);
    let l = &mut list;
    l.comment("two records written by hand, in 28 bytes and in more");
    by_hand(l, WORKED, WORKED_BYTES);
    by_hand(l, LARGER, LARGER_BYTES);
    l.comment("records that look random");
    (0..16).for_each(|seed| each(l, any(seed), 0));
    l.comment("sides at their ends with all pixels of one kind; the other numbers 0, and their largest");
    let largest = [(0, u32::MAX.into()), (1, u16::MAX.into()), (COMPARISONS, u32::MAX.into())];
    for (width, height) in [(1, 1), (1, 4096), (4096, 1), (4096, 4096)] {
        for kind in [DARK, LIGHT, SKIPPED] {
            let fields = with([0; 8], &[(WIDTH, width), (HEIGHT, height), (kind, width * height)]);
            each(l, fields, 0);
            each(l, with(fields, &largest), 0);
        }
    }
    l.comment("one count of 0; sides exchanged; the same pixels in one row and in one column");
    for (width, height, counts) in [
        (7, 11, [0, 32, 45]),
        (7, 11, [12, 0, 65]),
        (7, 11, [32, 45, 0]),
        (11, 7, [12, 20, 45]),
        (77, 1, [45, 12, 20]),
        (1, 77, [20, 45, 12]),
    ] {
        each(l, sized(width, height, counts), 0);
    }
    list
}
