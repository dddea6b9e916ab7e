//! Writes, reads and makes records as document 02 says, by a computation that shares nothing with the library: it
//! pushes and takes one byte at a time, and adds and multiplies in 128 bits.

use crate::asked::{MAKE_RECORD, READ_RECORD, WRITE_RECORD};
use crate::list::{Answer, Line, Written, TO};

/// The numbers of a record, as they stand in it: flask, pass, width, height, dark, light, skipped, comparisons.
pub type Fields = [u64; 8];

/// How many bytes each of them has.
const WIDTHS: [usize; 8] = [4, 2, 2, 2, 4, 4, 4, 4];

/// How many bytes a record has.
pub const RECORD_BYTES: usize = 28;

const MARK: [u8; 2] = [0x52, 0x31];

/// Tells whether each number fits its bytes.
pub fn fits(fields: &Fields) -> bool {
    fields.iter().zip(WIDTHS).all(|(number, width)| number >> (8 * width) == 0)
}

/// Returns the bytes of a record.
pub fn bytes(fields: &Fields) -> Vec<u8> {
    let mut bytes = MARK.to_vec();
    for (number, width) in fields.iter().zip(WIDTHS) {
        for place in (0..width).rev() {
            bytes.push((number >> (8 * place) & 0xff) as u8);
        }
    }
    bytes
}

/// Returns the numbers that stand after the mark.
pub fn fields(bytes: &[u8]) -> Fields {
    let mut bytes = bytes.iter().skip(MARK.len());
    WIDTHS.map(|width| bytes.by_ref().take(width).fold(0, |number, &byte| 256 * number + u64::from(byte)))
}

/// Tells whether both sides are in 1..4,096, and the counts add up to all pixels.
fn good(fields: &Fields) -> bool {
    let [_, _, width, height, dark, light, skipped, _] = fields.map(u128::from);
    let side = |side| (1..=4096).contains(&side);
    side(width) && side(height) && dark + light + skipped == width * height
}

fn write_number(fields: &Fields, length: usize) -> u64 {
    match (length < RECORD_BYTES, good(fields)) {
        (true, _) => 13,
        (false, good) => refused_unless(good),
    }
}

fn read_number(bytes: &[u8]) -> u64 {
    if bytes.len() < RECORD_BYTES || bytes[..2] != MARK {
        return 13;
    }
    refused_unless(good(&fields(bytes)))
}

fn make_number(numbers: &Fields) -> u64 {
    refused_unless(good(numbers) && fits(numbers))
}

fn refused_unless(good: bool) -> u64 {
    if good {
        0
    } else {
        14
    }
}

/// Returns the eight numbers of a call that has them.
fn numbers(n: &[u64]) -> Fields {
    n[1..].try_into().expect("eight numbers")
}

/// Returns the number with which a call is refused, or 0. It goes by the length of the second slice, and by the bytes
/// of the first that are listed.
pub fn number(line: &Line) -> u64 {
    match line.numbers[0] {
        WRITE_RECORD => write_number(&numbers(&line.numbers), line.lengths[TO] as usize),
        READ_RECORD => read_number(&line.from),
        MAKE_RECORD => make_number(&numbers(&line.numbers)),
        which => panic!("call {which} is none on a record"),
    }
}

/// Answers an accepted call on a record.
pub fn answer(n: &[u64], from: &[u8], mut left: Written) -> Answer {
    let values = match n[0] {
        WRITE_RECORD => {
            left.to[..RECORD_BYTES].copy_from_slice(&bytes(&numbers(n)));
            vec![]
        }
        READ_RECORD => fields(from).to_vec(),
        _ => numbers(n).to_vec(),
    };
    Answer { values, left }
}

/// Makes the record of some numbers and writes it to a slice. Returns the number with which that is refused, or 0.
pub fn keep(numbers: &Fields, slice: &mut [u8]) -> u64 {
    let made = make_number(numbers);
    let number = if made == 0 { write_number(numbers, slice.len()) } else { made };
    if number == 0 {
        slice[..RECORD_BYTES].copy_from_slice(&bytes(numbers));
    }
    number
}
