//! The rules of a record, written from document 02 alone: bytes by shifts, sums and products in 128 bits.

/// The numbers of a record in their order, each in a type that holds more than its field.
pub type Numbers = [u64; 8];

/// The places of the numbers, which their names and sizes below have too.
pub const FLASK: usize = 0;
pub const PASS: usize = 1;
pub const WIDTH: usize = 2;
pub const HEIGHT: usize = 3;
pub const DARK: usize = 4;
pub const LIGHT: usize = 5;
pub const SKIPPED: usize = 6;
pub const COMPARISONS: usize = 7;

pub const NAMES: [&str; 8] = ["flask", "pass", "width", "height", "dark", "light", "skipped", "comparisons"];
/// The number of bytes that each of them has in a record, the highest first.
pub const SIZES: [usize; 8] = [4, 2, 2, 2, 4, 4, 4, 4];

/// The bytes of a record, its mark included.
pub const BYTES: usize = 28;
/// The two bytes that a record begins with.
pub const MARK: [u8; 2] = [0x52, 0x31];
/// There are too few bytes, or they do not begin with the mark.
pub const NO_RECORD: u32 = 13;
/// A side is outside the limit, the counts do not add up, or a number does not fit its field.
pub const BAD_RECORD: u32 = 14;
/// The largest side; the least is 1.
pub const SIDE_LIMIT: u64 = 4096;

/// Returns the true sum of dark, light and skipped.
pub fn sum(numbers: &Numbers) -> u128 {
    u128::from(numbers[DARK]) + u128::from(numbers[LIGHT]) + u128::from(numbers[SKIPPED])
}

/// Returns the true product of the sides.
pub fn area(numbers: &Numbers) -> u128 {
    u128::from(numbers[WIDTH]) * u128::from(numbers[HEIGHT])
}

pub fn good_side(side: u64) -> bool {
    side != 0 && side <= SIDE_LIMIT
}

/// Tells whether a side is outside the limit, or the counts do not add up to the area.
pub fn bad(numbers: &Numbers) -> bool {
    !good_side(numbers[WIDTH]) || !good_side(numbers[HEIGHT]) || sum(numbers) != area(numbers)
}

/// Tells whether a number is one of so many bytes.
pub fn fits(number: u64, size: usize) -> bool {
    number >> (8 * size) == 0
}

/// Tells whether each number fits its field.
pub fn fit(numbers: &Numbers) -> bool {
    (0..8).all(|place| fits(numbers[place], SIZES[place]))
}

/// Returns the bytes of a record; of a number that does not fit, the lowest ones.
pub fn bytes(numbers: &Numbers) -> Vec<u8> {
    let mut bytes = MARK.to_vec();
    for place in 0..8 {
        for byte in (0..SIZES[place]).rev() {
            bytes.push((numbers[place] >> (8 * byte)) as u8);
        }
    }
    bytes
}

/// Returns the numbers that stand behind the mark.
pub fn numbers(bytes: &[u8]) -> Numbers {
    let (mut numbers, mut at) = ([0; 8], MARK.len());
    for place in 0..8 {
        for _ in 0..SIZES[place] {
            numbers[place] = numbers[place] << 8 | u64::from(bytes[at]);
            at += 1;
        }
    }
    numbers
}

/// Returns the bytes that a write puts first into a destination of this length, or its refusal.
pub fn write(numbers: &Numbers, len: usize) -> Result<Vec<u8>, u32> {
    if len < BYTES {
        return Err(NO_RECORD);
    }
    make(numbers).map(|made| bytes(&made))
}

/// Returns the numbers of the record in these bytes, or the refusal of a read.
pub fn read(source: &[u8]) -> Result<Numbers, u32> {
    if source.len() < BYTES || source[..2] != MARK {
        return Err(NO_RECORD);
    }
    let numbers = numbers(source);
    if bad(&numbers) {
        return Err(BAD_RECORD);
    }
    Ok(numbers)
}

/// Returns the numbers of the record that is made of these, or its refusal.
pub fn make(numbers: &Numbers) -> Result<Numbers, u32> {
    if bad(numbers) || !fit(numbers) {
        return Err(BAD_RECORD);
    }
    Ok(*numbers)
}
