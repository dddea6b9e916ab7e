//! Makes the numbers of records: good ones, spoilt ones, and those at the ends of their ranges.

use super::plain::{self, Numbers, COMPARISONS, DARK, FLASK, HEIGHT, LIGHT, PASS, SIZES, SKIPPED, WIDTH};
use crate::rng::Rng;
use std::iter::once;

/// The bits that C's types give each number.
pub const BITS: [u32; 8] = [32, 16, 64, 64, 64, 64, 64, 64];

/// Numbers at which something changes; each place has those that its type holds.
const EXTREMES: [u64; 14] = [
    0,
    1,
    4095,
    4096,
    4097,
    65_535,
    65_536,
    1 << 31,
    (1 << 32) - 1,
    1 << 32,
    (1 << 32) + 1,
    1 << 63,
    u64::MAX - 1,
    u64::MAX,
];

/// Good records, the first the least one. In the third no number has the same byte twice.
pub const GOOD: [Numbers; 7] = [
    [0, 0, 1, 1, 1, 0, 0, 0],
    [41, 7, 24, 30, 130, 590, 0, 15_144],
    [0x0102_0304, 0x0506, 0x0708, 0x090a, 0x0b_0c0d, 0x0e_0f10, 2_519_859, 0x1112_1314],
    [u32::MAX as u64, u16::MAX as u64, 4096, 4096, 4096 * 4096, 0, 0, u32::MAX as u64],
    [1 << 31, 1 << 15, 4096, 1, 0, 4096, 0, 1 << 31],
    [5, 6, 1, 4096, 0, 0, 4096, 402_653_183],
    [9, 1, 4096, 4096, 5_592_405, 5_592_405, 5_592_406, 1],
];

/// Returns the largest number that C passes at a place.
fn most(place: usize) -> u64 {
    u64::MAX >> (64 - BITS[place])
}

/// Returns the extremes that the type at a place holds.
fn extremes(place: usize) -> impl Iterator<Item = u64> {
    EXTREMES.into_iter().filter(move |&extreme| extreme <= most(place))
}

/// Returns the numbers with one count changed so that the counts add up, if there is such a count.
fn filled(numbers: &Numbers, count: usize) -> Option<Numbers> {
    let others = plain::sum(numbers) - u128::from(numbers[count]);
    let left = plain::area(numbers).checked_sub(others)?;
    let mut filled = *numbers;
    filled[count] = u64::try_from(left).ok()?;
    Some(filled)
}

/// Returns the numbers with every pair of extremes at every pair of places, as they are, and with a third place filled
/// so that the counts add up.
pub fn pairs(numbers: Numbers) -> impl Iterator<Item = Numbers> {
    let places = (0..8).flat_map(|i| (i + 1..8).map(move |j| (i, j)));
    let set = places.flat_map(move |(i, j)| {
        extremes(i).flat_map(move |a| {
            extremes(j).map(move |b| {
                let mut set = numbers;
                (set[i], set[j]) = (a, b);
                (set, [i, j])
            })
        })
    });
    set.flat_map(|(set, pair)| {
        let third = [DARK, LIGHT, SKIPPED].into_iter().find(|count| !pair.contains(count));
        once(set).chain(third.and_then(|count| filled(&set, count)))
    })
}

/// Returns the numbers with each bit that C passes changed by itself.
pub fn bits(numbers: Numbers) -> impl Iterator<Item = Numbers> {
    (0..8).flat_map(move |place| {
        (0..BITS[place]).map(move |bit| {
            let mut changed = numbers;
            changed[place] ^= 1 << bit;
            changed
        })
    })
}

/// Returns the numbers with other counts. Their sum is the area, or near to it, or this and 2^32 or 2^64 once or twice,
/// so that a sum of fewer bits would be the area. Each sum is put on the three counts in several ways.
pub fn sums(numbers: Numbers) -> Vec<Numbers> {
    let area = plain::area(&numbers);
    let (past_32, past_64) = (1u128 << 32, 1u128 << 64);
    let sums = [
        area - 1,
        area,
        area + 1,
        2 * area,
        area + past_32 - 1,
        area + past_32,
        area + past_32 + 1,
        area + 2 * past_32,
        past_32,
        past_32 - 1,
        area + past_64 - 1,
        area + past_64,
        area + past_64 + 1,
        area + 2 * past_64,
        past_64,
        past_64 - 1,
    ];
    let mut list = Vec::new();
    for sum in sums {
        for most in [u128::from(u32::MAX), u128::from(u64::MAX), sum / 3 + 1] {
            for order in [[DARK, LIGHT, SKIPPED], [LIGHT, SKIPPED, DARK], [SKIPPED, DARK, LIGHT]] {
                list.extend(shared(numbers, sum, most, order));
            }
        }
    }
    list
}

/// Gives each count in this order as much of the sum as is left, and at most so much. Nothing if some is left over.
fn shared(mut numbers: Numbers, mut sum: u128, most: u128, order: [usize; 3]) -> Option<Numbers> {
    for count in order {
        let share = sum.min(most);
        numbers[count] = u64::try_from(share).ok()?;
        sum -= share;
    }
    (sum == 0).then_some(numbers)
}

/// Returns the numbers with one of them beyond its field, but with the same low bits.
pub fn beyond(numbers: Numbers) -> impl Iterator<Item = Numbers> {
    (WIDTH..8).flat_map(move |place| {
        let field = 8 * SIZES[place] as u32;
        [field, field + 1, 32, 63].into_iter().filter(move |&bit| bit >= field).map(move |bit| {
            let mut beyond = numbers;
            beyond[place] |= 1 << bit;
            beyond
        })
    })
}

fn side(rng: &mut Rng) -> u64 {
    match rng.below(10) {
        0..=1 => 1,
        2..=3 => 4096,
        4 => rng.pick(&[2, 3, 255, 256, 257, 4095]),
        5 => rng.within(1, 4096) as u64,
        _ => rng.within(1, 60) as u64,
    }
}

/// Returns a number of so many bits: often an end of its range, else any.
fn any(rng: &mut Rng, bits: u32) -> u64 {
    let most = u64::MAX >> (64 - bits);
    match rng.below(8) {
        0 => 0,
        1 => most,
        2 => 1,
        3 => 1 << (bits - 1),
        _ => rng.next() & most,
    }
}

/// Makes the numbers of a good record.
pub fn good(rng: &mut Rng) -> Numbers {
    let mut numbers = [any(rng, 32), any(rng, 16), side(rng), side(rng), 0, 0, 0, any(rng, 32)];
    let area = (numbers[WIDTH] * numbers[HEIGHT]) as usize;
    let first = rng.pick(&[0, 0, area, rng.clone().below(area + 1)]);
    let second = rng.pick(&[0, area - first, rng.clone().below(area - first + 1)]);
    numbers[DARK] = first as u64;
    numbers[LIGHT] = second as u64;
    numbers[SKIPPED] = (area - first - second) as u64;
    let turns = rng.below(3);
    numbers[DARK..=SKIPPED].rotate_left(turns);
    numbers
}

/// Makes the numbers wrong in one way, which at times leaves them good all the same.
pub fn spoil(rng: &mut Rng, numbers: &mut Numbers) {
    let count = rng.pick(&[DARK, LIGHT, SKIPPED]);
    let place = rng.below(8);
    match rng.below(14) {
        0 => numbers[count] = numbers[count].wrapping_add(1),
        1 => numbers[count] = numbers[count].wrapping_sub(1),
        2 => numbers[place] = rng.pick(&extremes(place).collect::<Vec<_>>()),
        3..=4 => {
            let side = rng.pick(&[WIDTH, HEIGHT]);
            numbers[side] = rng.pick(&[0, 4097, 65_535, 65_536, rng.clone().next() >> 48]);
            *numbers = filled(numbers, count).unwrap_or(*numbers);
        }
        5 => wrap(rng, numbers, 32),
        6 => wrap(rng, numbers, 64),
        7 => numbers[place] ^= 1 << rng.below(BITS[place] as usize),
        8 => numbers[COMPARISONS] = rng.pick(&[1 << 32, (1 << 32) + 1, u64::MAX, rng.clone().next()]),
        9 => *numbers = rng.pick(&beyond(*numbers).collect::<Vec<_>>()),
        10 => numbers.swap(WIDTH, place.clamp(HEIGHT, COMPARISONS)),
        11 => numbers[count] = numbers[count].wrapping_add(rng.within(2, 5000) as u64),
        12 => numbers[count] = rng.next() >> rng.below(64),
        _ => (numbers[FLASK], numbers[PASS]) = (any(rng, 32), any(rng, 16)),
    }
}

/// Gives the counts any values of so many bits whose sum is right modulo 2 to that number.
fn wrap(rng: &mut Rng, numbers: &mut Numbers, bits: u32) {
    let area = plain::area(numbers) as u64;
    (numbers[DARK], numbers[LIGHT]) = (any(rng, bits), any(rng, bits));
    let left = area.wrapping_sub(numbers[DARK]).wrapping_sub(numbers[LIGHT]);
    numbers[SKIPPED] = left & u64::MAX >> (64 - bits);
}

/// Makes numbers that are good in about every second case.
pub fn random(rng: &mut Rng) -> Numbers {
    let mut numbers = good(rng);
    if rng.one_in(2) {
        spoil(rng, &mut numbers);
        if rng.one_in(6) {
            spoil(rng, &mut numbers);
        }
    }
    numbers
}

/// Returns simpler numbers, for the search for the smallest that still differ.
pub fn simpler(numbers: &Numbers) -> Vec<Numbers> {
    let mut list = vec![GOOD[0]];
    for place in 0..8 {
        let number = numbers[place];
        for less in [0, 1, number / 2, number.saturating_sub(1)].into_iter().filter(|&less| less < number) {
            let mut next = *numbers;
            next[place] = less;
            list.extend([DARK, LIGHT, SKIPPED].into_iter().filter_map(|count| filled(&next, count)));
            list.push(next);
        }
    }
    // No step leads back: each has a smaller sum, or the same and less light or skipped.
    let size = |numbers: &Numbers| {
        let all: u128 = numbers.iter().map(|&number| u128::from(number)).sum();
        (all, numbers[LIGHT], numbers[SKIPPED])
    };
    list.retain(|next| size(next) < size(numbers));
    list
}
