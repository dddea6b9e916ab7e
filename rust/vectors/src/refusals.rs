//! Makes the lists of refusals of each call, with limits exact and one short. The answers of accepted calls among them
//! come from `asked`, as in the other lists.

use crate::asked::{BUILD, CLOSE, DILATE, DIVIDE, ERODE, OPEN, READING, SAUVOLA};
use crate::conditions::{
    bad, combined, layout, lent, limits, numbered, pictured, pictures, short, Condition, DESTINATION, SOURCE,
};
use crate::grids::TILES;
use crate::list::{Line, List, BYTES, OTHER, TO, U16S, U32S, U64S};
use crate::readings::{kernels, READINGS, WINDOW};
use crate::stored::room;

/// The place of an operator's first setting.
pub const SETTINGS: usize = 7;

const ODD: [u64; 4] = [3, 5, 4097, u64::MAX];
const EVEN_OR_SMALL: [u64; 6] = [0, 1, 2, 4, 4096, u64::MAX - 1];

/// Makes a call on pictures of 4 by 3 with two strides, each slice as short as it may be.
pub fn operator(which: u64, settings: &[u64]) -> Line {
    let [bytes, u64s, rows, u32s] = room(which, 4, 3, settings);
    let numbers = [&[which, 4, 3, 5, 4, 3, 6], settings].concat();
    Line { numbers, lengths: [14, 16, 0, bytes, u64s, rows, u32s], ..Line::default() }
}

/// Makes a call on two packed pictures of one size.
pub fn packed(which: u64, width: u64, height: u64, settings: &[u64]) -> Line {
    let [bytes, u64s, rows, u32s] = room(which, width, height, settings);
    let line = Line { lengths: [0, 0, 0, bytes, u64s, rows, u32s], ..operator(which, settings) };
    let picture = [width * height, width, height, width];
    pictured(&pictured(&line, SOURCE, picture), DESTINATION, picture)
}

/// Writes sizes that differ in each way, and layouts at their limits, all with good settings and workspaces.
fn sizes(l: &mut List, good: &Line) {
    l.comment("sizes that differ in the width, in the height, in both; the same area turned");
    for destination in [[15, 3, 3, 6], [17, 5, 3, 6], [22, 4, 4, 6], [9, 3, 2, 6], [12, 3, 4, 3]] {
        l.refused(&pictured(good, DESTINATION, destination), 5);
    }
    l.comment("strides at their ends: one row takes every stride, two rows need a slice that no memory has");
    let far = u64::MAX;
    let plain = [4, 4, 1, 4];
    for (source, destination, number) in [
        ([4, 4, 1, far], [4, 4, 1, far], 0),
        ([3, 4, 1, far], [4, 4, 1, far], 3),
        (plain, [3, 4, 1, far], 3),
        ([4, 4, 2, far], plain, 3),
        (plain, [4, 4, 3, 1 << 63], 3),
        ([4999, 5000, 1, 5000], [16, 4, 3, 6], 3),
        ([5000, 1, 5000, 1], [16, 4, 3, 6], 4),
        ([14, 4, 3, 5], [4999, 5000, 1, 5000], 3),
        ([14, 4, 3, 5], [5000, 1, 5000, 1], 4),
    ] {
        l.answered(&pictured(&pictured(good, SOURCE, source), DESTINATION, destination), number);
    }
}

/// Writes calls with an exact workspace and with one that is one short, at several sizes.
fn rooms(l: &mut List, which: u64, settings: &[u64], slice: usize) {
    l.comment("the workspace exact, one short, none, and longer");
    for (width, height) in [(1, 1), (4, 3), (1, 9), (9, 1), (4096, 1), (1, 4096)] {
        let good = packed(which, width, height, settings);
        l.answered(&good, 0);
        l.refused(&lent(&good, slice, good.lengths[slice] - 1), 8);
    }
    let good = packed(which, 4, 3, settings);
    l.refused(&lent(&good, slice, 0), 8);
    l.answered(&lent(&good, slice, good.lengths[slice] + 5), 0);
}

const BY_HAND: &str =
    "The numbers are document 01's, and of several conditions the earliest counts: no program was asked.";
/// The same of calls to which document 02 adds.
pub const BY_BOTH: &str =
    "The numbers are documents 01's and 02's, and of several conditions the earliest counts: no program was asked.";
pub const KEEPS: &str =
    "A refused call leaves every slice as it was. What accepted calls answer is the published Rust's, \
    aukilabs/qr-lab at c99d6ca466.";
pub const LAYOUTS: &str = "1 to 4 the source's layout, then the destination's; 5 sizes;";

fn refusals(name: &str, head: &[&str]) -> List {
    List::new(name, &[head, &[BY_HAND, KEEPS]].concat())
}

/// Writes all refusals of one operator, and then its settings' limits.
pub fn all(l: &mut List, good: &Line, settings: Vec<Condition>, slice: usize, limits: impl Fn(&mut List, &Line)) {
    let mut conditions = pictures();
    conditions.extend(settings);
    conditions.push(short(8, "the workspace", slice));
    combined(l, good, &conditions, |l, line, number| l.answered(line, number));
    sizes(l, good);
    l.comment("settings at their limits");
    limits(l, good);
    rooms(l, good.numbers[0], &good.numbers[SETTINGS..], slice);
}

pub fn morphology() -> List {
    let head =
        "Refusals of erosion, dilation, opening and closing, calls 9 to 12: both pictures' sides and strides, kernel;";
    let mut l = refusals("morphology_refusals", &[head, LAYOUTS, "6 the kernel; 8 the workspace; 0 accepted."]);
    for which in [ERODE, DILATE, OPEN, CLOSE] {
        all(&mut l, &operator(which, &[3]), vec![bad(6, "the kernel", SETTINGS, 2)], BYTES, |l, good| {
            limits(l, good, SETTINGS, &ODD, &EVEN_OR_SMALL, 6);
        });
    }
    l
}

pub fn division() -> List {
    let head = "Refusals of background division, call 13: width height stride of both pictures, element target floor;";
    let mut l = refusals("division_refusals", &[head, LAYOUTS, "7 settings; 8 the workspace; 0 accepted."]);
    let settings = vec![bad(7, "the element", SETTINGS, 2), bad(7, "the floor", SETTINGS + 2, 0)];
    all(&mut l, &operator(DIVIDE, &[3, 200, 8]), settings, BYTES, |l, good| {
        limits(l, good, SETTINGS, &ODD, &EVEN_OR_SMALL, 7);
        limits(l, good, SETTINGS + 2, &[1, 255], &[0], 7);
        limits(l, good, SETTINGS + 1, &[0, 255], &[], 7);
    });
    l
}

pub fn sauvola() -> List {
    let head = "Refusals of Sauvola, call 14: width height stride of both pictures,";
    let mut l = refusals("sauvola_refusals", &[head, WINDOW, LAYOUTS, "7 settings; 8 the workspace; 0 accepted."]);
    let settings =
        vec![bad(7, "the radius", SETTINGS, 0), bad(7, "k", SETTINGS + 1, 1001), bad(7, "the range", SETTINGS + 2, 0)];
    let large = u64::from(u32::MAX);
    all(&mut l, &operator(SAUVOLA, &[8, 200, 128, 0, 255]), settings, U64S, |l, good| {
        limits(l, good, SETTINGS, &[1, 4096, 65_536, u64::MAX], &[0], 7);
        limits(l, good, SETTINGS + 1, &[0, 1, 999, 1000], &[1001, large], 7);
        limits(l, good, SETTINGS + 2, &[1, large], &[0], 7);
    });
    l
}

/// The bit pattern of a NaN with another sign and payload.
const OTHER_NAN: u64 = 0xfff0_0000_0000_0001;

/// The places of a grid's method, k and range.
const METHOD: usize = 8;
const K: usize = 9;
const RANGE: usize = 10;

fn floats(l: &mut List, good: &Line) {
    l.comment(
        "k and range not finite, range not above 0; then k of either sign and range just above 0, each at its ends",
    );
    let not_finite = [f64::NAN, f64::from_bits(OTHER_NAN), f64::INFINITY, f64::NEG_INFINITY];
    let not_above = [0.0, -0.0, -1.0, -128.0, f64::MIN, -f64::from_bits(1)];
    let finite = [0.0, -0.0, -0.2, f64::from_bits(1), -f64::from_bits(1), f64::MAX, f64::MIN];
    let above = [f64::from_bits(1), f64::MIN_POSITIVE, f64::MAX];
    let bits = |floats: &[f64]| floats.iter().map(|float| float.to_bits()).collect::<Vec<u64>>();
    limits(l, good, K, &[], &bits(&not_finite), 7);
    limits(l, good, RANGE, &[], &bits(&not_finite), 7);
    limits(l, good, RANGE, &[], &bits(&not_above), 7);
    limits(l, good, K, &bits(&finite), &[], 7);
    limits(l, good, RANGE, &bits(&above), &[], 7);
}

pub fn grid() -> List {
    let numbers = "1 to 4 the layout; 7 a zero tile side, or of Sauvola k or range not finite or range not above 0;";
    let rooms =
        "8 a workspace under 5t u64s; 10 a buffer under t bytes, t the number of tiles, or a count buffer with \
        fewer numbers than there are tile rows; 0 accepted.";
    let head = "Refusals of the grid's build, call 15: width height stride of the source,";
    let mut l = List::new("grid_refusals", &[head, TILES, numbers, rooms, BY_BOTH, KEEPS]);
    let numbers = vec![BUILD, 4, 3, 5, 2, 2, 1, 12, 1, 0.2f64.to_bits(), 128f64.to_bits(), 0];
    let good = Line { numbers, lengths: [14, 4, 4, 0, 20, 2, 0], ..Line::default() };
    let mut conditions = layout("source", SOURCE);
    conditions.extend([bad(7, "the tile width", 4, 0), bad(7, "the tile height", 5, 0)]);
    conditions.extend([bad(7, "k", K, f64::INFINITY.to_bits()), bad(7, "the range", RANGE, 0)]);
    conditions.extend([
        short(8, "the workspace", U64S),
        short(10, "the thresholds", TO),
        short(10, "the skips", OTHER),
        short(10, "the count buffer", U16S),
    ]);
    combined(&mut l, &good, &conditions, |l, line, number| l.answered(line, number));
    l.comment(
        "Midrange has no floats; a zero tile side is refused all the same; radius and contrast floor at their ends",
    );
    let midrange = numbered(&numbered(&numbered(&good, METHOD, 0), K, 0), RANGE, 0);
    limits(&mut l, &midrange, 4, &[2], &[0], 7);
    limits(&mut l, &midrange, 5, &[], &[0], 7);
    limits(&mut l, &midrange, 6, &[0, u64::MAX], &[], 7);
    limits(&mut l, &midrange, 7, &[0, 255], &[], 7);
    floats(&mut l, &good);
    l.comment("workspace and buffers exact and one short, for each method; ragged tiles, one tile, tiles of one pixel");
    let shapes = [
        (4, 3, 2, 2, 4),
        (5, 4, 2, 3, 6),
        (5, 4, 16, 16, 1),
        (5, 4, 1, 1, 20),
        (5, 4, u64::MAX, 1, 4),
        (4096, 1, 4096, 1, 1),
    ];
    for (width, height, tile_width, tile_height, tiles) in shapes {
        for method in [0, 1] {
            let sized = pictured(&good, SOURCE, [width * height, width, height, width]);
            let mut exact = numbered(&numbered(&numbered(&sized, 4, tile_width), 5, tile_height), METHOD, method);
            let rows = height.div_ceil(tile_height);
            exact.lengths[1..U32S].copy_from_slice(&[tiles, tiles, 0, 5 * tiles, rows]);
            l.answered(&exact, 0);
            l.refused(&lent(&exact, U64S, 5 * tiles - 1), 8);
            for (slice, length) in [(TO, tiles), (OTHER, tiles), (U16S, rows)] {
                l.refused(&lent(&exact, slice, length - 1), 10);
            }
            let none = lent(&lent(&lent(&exact, TO, 0), OTHER, 0), U16S, 0);
            l.refused(&lent(&none, U64S, 0), 8);
            l.refused(&none, 10);
            let mut longer = exact;
            longer.lengths[1..U32S].copy_from_slice(&[tiles + 2, tiles + 1, 0, 5 * tiles + 3, rows + 3]);
            l.answered(&longer, 0);
        }
    }
    l
}

pub fn reading() -> List {
    let numbers = "7 the division's settings; 6 the opening's kernel; 7 the grid's, then Sauvola's settings;";
    let rooms = "8 bytes under 9wh + 2t or u64s under 2(w + 1)(h + 1) + 5t, t the number of tiles; 10 a count buffer \
        with fewer numbers than there are tile rows; 0 accepted.";
    let head = ["Refusals of the reading, call 19:", READINGS].join(" ");
    let mut l = List::new("reading_refusals", &[&head, TILES, WINDOW, LAYOUTS, numbers, rooms, BY_BOTH, KEEPS]);
    let mut settings = kernels(5, 3);
    settings[4..11].copy_from_slice(&[2, 2, 1, 12, 1, 0.2f64.to_bits(), 128f64.to_bits()]);
    let good = operator(READING, &settings);
    let mut conditions = pictures();
    conditions.extend([bad(7, "the element", 7, 2), bad(7, "the floor", 9, 0), bad(6, "the opening kernel", 10, 2)]);
    conditions.extend([bad(7, "the tile width", 11, 0), bad(7, "the tile height", 12, 0)]);
    conditions.extend([bad(7, "the grid's k", 16, f64::NAN.to_bits()), bad(7, "the grid's range", 17, 0)]);
    conditions.extend([bad(7, "the radius", 19, 0), bad(7, "k", 20, 1001), bad(7, "the range", 21, 0)]);
    conditions.extend([short(8, "the bytes", BYTES), short(8, "the u64s", U64S)]);
    conditions.push(short(10, "the count buffer", U16S));
    combined(&mut l, &good, &conditions, |l, line, number| l.answered(line, number));
    l.comment("the two kernels: odd and at least 3");
    limits(&mut l, &good, 7, &ODD, &EVEN_OR_SMALL, 7);
    limits(&mut l, &good, 10, &ODD, &EVEN_OR_SMALL, 6);
    l.comment("settings at their ends; Midrange has no floats");
    limits(&mut l, &good, 8, &[0, 255], &[], 0);
    limits(&mut l, &good, 9, &[1], &[], 0);
    limits(&mut l, &good, 13, &[u64::MAX], &[], 0);
    limits(&mut l, &good, 14, &[255], &[], 0);
    let midrange = numbered(&numbered(&good, 16, f64::NAN.to_bits()), 17, (-1f64).to_bits());
    limits(&mut l, &midrange, 15, &[0], &[], 0);
    limits(&mut l, &good, 19, &[u64::MAX], &[], 0);
    limits(&mut l, &good, 20, &[1000], &[], 0);
    limits(&mut l, &good, 21, &[u64::from(u32::MAX)], &[], 0);
    l.comment("the workspaces and the count buffer exact, each of them one short, none, and all longer; several tiles");
    let shapes = [(4, 3, 2, 2), (5, 4, 2, 3), (5, 4, 16, 16), (5, 4, 1, 1), (5, 4, u64::MAX, 1), (1, 1, 1, 1)];
    for (width, height, tile_width, tile_height) in shapes.into_iter().chain([(4096, 1, 16, 16), (1, 4096, 16, 16)]) {
        (settings[4], settings[5], settings[8]) = (tile_width, tile_height, 0);
        let exact = packed(READING, width, height, &settings);
        let [bytes, u64s, rows] = [BYTES, U64S, U16S].map(|slice| exact.lengths[slice]);
        l.answered(&exact, 0);
        for (slice, length, number) in [(BYTES, bytes, 8), (U64S, u64s, 8), (U16S, rows, 10)] {
            l.refused(&lent(&exact, slice, length - 1), number);
            l.refused(&lent(&exact, slice, 0), number);
        }
        l.refused(&lent(&lent(&exact, U64S, u64s - 1), U16S, 0), 8);
        l.answered(&lent(&lent(&lent(&exact, BYTES, bytes + 3), U64S, u64s + 5), U16S, rows + 2), 0);
    }
    l
}
