//! Makes the list of readings that are kept: a picture is read, and the record of the reading written to a slice.

use super::plain::RECORD_BYTES;
use super::{BY_HAND, KEEPS, PLAIN, SHORT, VALUES};
use crate::asked::KEEP_READING;
use crate::conditions::lent;
use crate::grids::TILES;
use crate::list::{List, BYTES, OTHER};
use crate::picture::Picture;
use crate::readings::{half_flat, kernels, tiled, with, Reading, READINGS, WINDOW};
use crate::stored::{line, EXACT, OPEN_TILES, WALK};

/// A flask, a pass, and the sides that the record is made with.
type Kept = [u64; 4];

/// Writes an accepted reading, whose record is written to a slice of a length. The number is that of the record's
/// refusal, or 0. Returns the reading's numbers.
fn kept(l: &mut List, picture: &Picture, settings: &Reading, record: Kept, length: usize, number: u64) -> Vec<u64> {
    let line = line(KEEP_READING, picture, picture.width + 1, 2, &[&settings[..], &record].concat());
    let mut values = l.accepted(&lent(&line, OTHER, length as u64)).values;
    assert_eq!(values.pop(), Some(number));
    values
}

pub fn readings() -> List {
    let head = ["Readings that are kept, call 27:", READINGS, TILES, WINDOW];
    let record =
        "flask pass width height of the record; dark light skipped comparisons, and the number with which the \
        record is refused or 0. A record begins the third slice, which stays as it was where the record is refused.";
    let chain = "The picture's bytes and the first three counts are those of the published Rust, aukilabs/qr-lab at \
        c99d6ca466, whose calls are made one after the other (rust/vectors/src/chain.rs).";
    let texts = [&head.join(" "), record, SHORT, VALUES, BY_HAND, PLAIN, chain, WALK, OPEN_TILES, EXACT, KEEPS];
    let mut list = List::new("record_readings", &texts);
    let l = &mut list;
    let [row, page] = [Picture::row(&[0, 200]), Picture::packed(10, 7, &half_flat(10, 7))];
    let dark = with(kernels(3, 3), &[(7, 0)]);
    let tiles = tiled(kernels(5, 3), 3, 2, 12);
    l.comment("skipped pixels alone, dark ones alone, then some of each kind");
    assert_eq!(kept(l, &row, &kernels(3, 3), [1, 2, 2, 1], RECORD_BYTES, 0), [0, 0, 2, 24]);
    let largest = [u32::MAX.into(), u16::MAX.into(), 2, 1];
    assert_eq!(kept(l, &row, &dark, largest, RECORD_BYTES + 1, 0), [2, 0, 0, 24]);
    let values = kept(l, &page, &tiles, [0x0102_0304, 0x0506, 10, 7], RECORD_BYTES + 12, 0);
    assert!(values.iter().all(|&count| count > 0), "{values:?}");
    l.comment("sides exchanged, whose product is the same");
    kept(l, &page, &tiles, [0, 0, 7, 10], RECORD_BYTES, 0);
    l.comment("sides with other products, and sides outside 1..4096");
    let far = u64::MAX;
    let beyond = [[65_538, 1], [2, 65_537], [(1 << 32) + 2, 1], [2, (1 << 32) + 1], [(1 << 63) + 1, 2], [far, far]];
    for [width, height] in [&[[3, 1], [1, 1], [2, 2], [2, 0], [0, 1], [4097, 1], [2, 4097]], &beyond[..]].concat() {
        kept(l, &row, &dark, [5, 6, width, height], RECORD_BYTES, 14);
    }
    l.comment("27 bytes and none for the record; with other sides no record is made, and the slice does not matter");
    for length in [RECORD_BYTES - 1, 0] {
        kept(l, &row, &dark, [5, 6, 2, 1], length, 13);
        kept(l, &row, &dark, [5, 6, 2, 2], length, 14);
    }
    l.comment("a reading that is refused for its byte workspace is not kept");
    let line = line(KEEP_READING, &row, 3, 0, &[&dark[..], &[5, 6, 2, 1]].concat());
    let short = lent(&line, BYTES, line.lengths[BYTES] - 1);
    l.refused(&lent(&short, OTHER, RECORD_BYTES as u64), 8);
    list
}
