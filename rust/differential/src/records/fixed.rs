//! The fixed cases of the write, the read and the making of records.

use super::make::Make;
use super::numbers::{beyond, bits, pairs, sums, GOOD};
use super::plain::{self, Numbers, BYTES, COMPARISONS, DARK, HEIGHT, LIGHT, MARK, WIDTH};
use super::read::Read;
use super::write::Write;
use crate::rng::Word;
use crate::run::{Checked, Difference, Plan, Run};

/// The longest slice of the cases of every length.
const LONGEST: usize = 40;

/// Two records and their bytes, worked out by hand.
const BY_HAND: [(Numbers, [u8; BYTES]); 2] = [
    (
        [0x0102_0304, 0x0506, 2, 0x0100, 0x00ff, 0, 0x0101, 0x1718_191a],
        [
            0x52, 0x31, 0x01, 0x02, 0x03, 0x04, 0x05, 0x06, 0x00, 0x02, 0x01, 0x00, 0x00, 0x00, 0x00, 0xff, 0x00, 0x00,
            0x00, 0x00, 0x00, 0x00, 0x01, 0x01, 0x17, 0x18, 0x19, 0x1a,
        ],
    ),
    (
        [41, 7, 24, 30, 130, 590, 0, 15_144],
        [b'R', b'1', 0, 0, 0, 41, 0, 7, 0, 24, 0, 30, 0, 0, 0, 130, 0, 0, 2, 78, 0, 0, 0, 0, 0, 0, 59, 40],
    ),
];

/// The number of a write of these numbers to a destination of this length, written by hand.
const ANSWERS: [(Numbers, usize, u32); 17] = [
    ([1, 2, 3, 4, 5, 6, 1, 7], 28, 0),
    ([1, 2, 3, 4, 5, 6, 1, 7], 27, 13),
    ([1, 2, 3, 4, 5, 6, 1, 7], 0, 13),
    ([1, 2, 3, 4, 5, 6, 0, 7], 28, 14),
    ([1, 2, 3, 4, 5, 6, 2, 7], 28, 14),
    ([1, 2, 3, 4, 5, 6, 2, 7], 27, 13),
    ([1, 2, 0, 4, 0, 0, 0, 7], 28, 14),
    ([1, 2, 3, 0, 0, 0, 0, 7], 28, 14),
    ([1, 2, 4096, 1, 4096, 0, 0, 7], 28, 0),
    ([1, 2, 4097, 1, 4097, 0, 0, 7], 28, 14),
    ([1, 2, 1, 4096, 0, 4096, 0, 7], 28, 0),
    ([1, 2, 1, 4097, 0, 4097, 0, 7], 28, 14),
    ([1, 2, 65_537, 1, 1, 0, 0, 7], 28, 14),
    ([1, 2, 1, 1, (1 << 32) - 1, 1, 1, 7], 28, 14),
    ([1, 2, 1, 1, u64::MAX, 1, 1, 7], 28, 14),
    ([1, 2, 1, 1, 0, 0, 1, (1 << 32) - 1], 40, 0),
    ([1, 2, 1, 1, 0, 0, 1, 1 << 32], 40, 14),
];

/// Checks the plain rules against what is worked out by hand.
fn by_hand() -> Checked {
    for (numbers, bytes) in BY_HAND {
        if plain::write(&numbers, BYTES).as_deref() != Ok(&bytes[..]) || plain::read(&bytes) != Ok(numbers) {
            return Err(Difference(format!("the plain rules of a record: {bytes:?}")));
        }
    }
    for (numbers, len, number) in ANSWERS {
        if plain::write(&numbers, len).err().unwrap_or(0) != number {
            return Err(Difference(format!("the plain rules of a write: {numbers:?} to {len} bytes")));
        }
    }
    Ok(())
}

/// Returns records that are bad by one number each.
fn bad() -> Vec<Numbers> {
    let [_, usual, ..] = GOOD;
    let changed = [(WIDTH, 0), (HEIGHT, 0), (WIDTH, 4097), (HEIGHT, 4097), (DARK, 129), (DARK, 131), (LIGHT, 0)];
    changed
        .map(|(place, number)| {
            let mut bad = usual;
            bad[place] = number;
            bad
        })
        .to_vec()
}

/// Returns records with sides at and around their limits. All pixels are in one count, or one pixel is in each of two.
fn sides() -> Vec<Numbers> {
    let ends = [0, 1, 2, 4095, 4096, 4097, 65_535, 65_536, 65_537, 1 << 32, 1 << 48, 1 << 63, u64::MAX];
    let mut list = Vec::new();
    for width in ends {
        for height in ends {
            let area = width.wrapping_mul(height);
            for counts in [[area, 0, 0], [0, area, 0], [0, 0, area], [1, area.wrapping_sub(2), 1]] {
                list.push([7, 8, width, height, counts[0], counts[1], counts[2], 9]);
            }
        }
    }
    list
}

/// Returns all numbers that the write and the making have as fixed cases. The read has those that fit their fields.
fn all() -> Vec<Numbers> {
    let mut list = GOOD.to_vec();
    list.extend(BY_HAND.map(|(numbers, _)| numbers));
    list.extend(ANSWERS.map(|(numbers, ..)| numbers));
    list.extend(bad());
    list.extend(sides());
    for numbers in GOOD {
        list.extend(bits(numbers));
        list.extend(sums(numbers));
        list.extend(beyond(numbers));
        for comparisons in [0, (1 << 32) - 1, 1 << 32, (1 << 32) + 1, u64::MAX] {
            let mut next = numbers;
            next[COMPARISONS] = comparisons;
            list.push(next);
        }
    }
    for numbers in &GOOD[1..4] {
        list.extend(pairs(*numbers));
    }
    list
}

pub fn writes(run: &mut Run, _: &Plan) -> Checked {
    by_hand()?;
    for numbers in all() {
        run.case(&Write::new(numbers, BYTES))?;
    }
    for numbers in GOOD.into_iter().chain(bad()).chain(beyond(GOOD[1])) {
        for len in 0..=LONGEST {
            run.case(&Write::new(numbers, len))?;
        }
    }
    Ok(())
}

pub fn makes(run: &mut Run, _: &Plan) -> Checked {
    for numbers in all() {
        for stride in [0, numbers[WIDTH] as usize, usize::MAX] {
            run.case(&Make { numbers, stride })?;
        }
    }
    Ok(())
}

pub fn reads(run: &mut Run, plan: &Plan) -> Checked {
    by_hand()?;
    for numbers in all().iter().filter(|&numbers| plain::fit(numbers)) {
        run.case(&Read::new(plain::bytes(numbers)))?;
    }
    for numbers in GOOD.into_iter().chain(bad()) {
        let bytes = [plain::bytes(&numbers), u8::noise(LONGEST - BYTES, 3)].concat();
        for len in 0..=LONGEST {
            run.case(&Read::new(bytes[..len].to_vec()))?;
        }
        for mark in [[0, 0], [MARK[0], 0], [0, MARK[1]], [MARK[1], MARK[0]], [MARK[0], MARK[0]], [MARK[1], MARK[1]]] {
            run.case(&Read::new([&mark, &bytes[2..BYTES]].concat()))?;
        }
    }
    for numbers in GOOD {
        each_bit(run, plain::bytes(&numbers))?;
    }
    if plan.two_levels > 0 {
        each_mark(run, plain::bytes(&GOOD[1]))?;
    }
    Ok(())
}

/// Changes each of the 224 bits by itself.
fn each_bit(run: &mut Run, bytes: Vec<u8>) -> Checked {
    for bit in 0..8 * BYTES {
        let mut changed = bytes.clone();
        changed[bit / 8] ^= 1 << (bit % 8);
        run.case(&Read::new(changed))?;
    }
    Ok(())
}

/// Runs the record with each of the 65,536 marks.
fn each_mark(run: &mut Run, bytes: Vec<u8>) -> Checked {
    for first in 0..=255 {
        for second in 0..=255 {
            run.case(&Read::new([&[first, second], &bytes[2..]].concat()))?;
        }
    }
    Ok(())
}
