//! Makes the lists of refusals of the calls on a built grid: queries, and the calls that blank and clear a tile.

use crate::asked::{BLANK, CLEAR, IS_SKIP, ROW_ALL_SKIP, THRESHOLD_AT};
use crate::blanking::TILE;
use crate::conditions::{bad, combined, condition, lent, limits, numbered, short, Condition};
use crate::grids::QUERY;
use crate::list::{Line, List, FROM, TO, U16S};
use crate::refusals::BY_BOTH;

/// Writes the three queries for one place, with the number of the pixel's two and that of the row's. Each is lent its
/// own buffer alone.
fn asked(l: &mut List, query: &Line, pixel: u64, row: u64) {
    for (which, number, other) in [(THRESHOLD_AT, pixel, U16S), (IS_SKIP, pixel, U16S), (ROW_ALL_SKIP, row, FROM)] {
        l.answered(&lent(&numbered(query, 0, which), other, 0), number);
    }
}

pub fn queries() -> List {
    let head = "Refusals of queries to a grid, calls 16 (threshold), 17 (skip) and 18 (a row's skips):";
    let numbers = "7 a side outside 1..4096, a zero tile side, or tile counts that are not the ceilings;";
    let others = "10 a buffer under tiles-x * tiles-y bytes or, for a row, under tiles-y numbers; 9 a pixel or row \
        outside; 0 answered by a plain walk (asked.rs).";
    let mut list = List::new("queries_refusals", &[head, QUERY, numbers, others, BY_BOTH]);
    let l = &mut list;
    // A picture of 8 by 7 in tiles of 3 by 2 has 3 by 4 of them. The numbers: sides, tile sides, tile counts, x, y.
    let query = |numbers: [u64; 8], [bytes, rows]: [u64; 2]| Line {
        numbers: [&[0], &numbers[..]].concat(),
        lengths: [bytes, 0, 0, 0, 0, rows, 0],
        ..Line::default()
    };
    let good = query([8, 7, 3, 2, 3, 4, 7, 6], [12, 4]);
    let conditions = [
        bad(7, "no width", 1, 0),
        bad(7, "no height", 2, 0),
        bad(7, "no tile width", 3, 0),
        bad(7, "no tile height", 4, 0),
        bad(7, "a tile column too many", 5, 4),
        bad(7, "a tile row too few", 6, 3),
        condition(10, "the buffer", |line| lent(&lent(line, FROM, 11), U16S, 3)),
        bad(9, "a row outside", 8, 7),
    ];
    combined(l, &good, &conditions, |l, line, number| asked(l, line, number, number));
    l.comment("a column outside alone, which a row's query is not asked, and after each other condition");
    [8, 9, u64::MAX].iter().for_each(|&x| asked(l, &numbered(&good, 7, x), 9, 0));
    for (number, _, change) in &conditions {
        asked(l, &change(&numbered(&good, 7, 8)), *number, *number);
    }
    l.comment("sides at the limit and above it, rows far outside, the largest tiles, counts one off on either side");
    let far = u64::MAX;
    for (numbers, room, pixel, row) in [
        ([4096, 1, 1024, 1, 4, 1, 4095, 0], [4, 1], 0, 0),
        ([4096, 1, 1024, 1, 4, 1, 4096, 0], [4, 1], 9, 0),
        ([4097, 1, 1024, 1, 5, 1, 4095, 0], [5, 1], 7, 7),
        ([4096, 4097, 1024, 1, 4, 4097, 4095, 0], [4, 1], 7, 7),
        ([8, 7, 3, 2, 3, 4, 7, far], [12, 4], 9, 9),
        ([8, 7, far, far, 1, 1, 7, 6], [1, 1], 0, 0),
        ([8, 7, far, far, 1, 1, 7, 6], [0, 0], 10, 10),
        ([8, 7, far, far, 0, 1, 7, 6], [1, 1], 7, 7),
        ([8, 7, far, far, 1, far, 7, 6], [1, 1], 7, 7),
        ([8, 7, 3, 2, 2, 4, 7, 6], [12, 4], 7, 7),
        ([8, 7, 3, 2, 4, 4, 7, 6], [12, 4], 7, 7),
        ([8, 7, 3, 2, 3, 3, 7, 6], [12, 4], 7, 7),
        ([8, 7, 3, 2, 3, 5, 7, 6], [12, 5], 7, 7),
        ([8, 7, 3, 2, 4, 3, 7, 6], [12, 4], 7, 7),
        ([8, 7, 3, 2, 0, 0, 7, 6], [12, 4], 7, 7),
        ([8, 7, 3, 2, 3, 4, 7, 6], [13, 5], 0, 0),
        ([8, 7, 3, 2, 3, 4, 7, 6], [0, 0], 10, 10),
        ([4, 6, 1, 2, 4, 3, 3, 5], [12, 3], 0, 0),
        ([4, 6, 1, 2, 4, 3, 3, 5], [11, 2], 10, 10),
        ([1, 290, 1, 1, 1, 290, 0, 289], [290, 290], 0, 0),
        ([1, 290, 1, 1, 1, 290, 0, 289], [289, 289], 10, 10),
        ([1, 4096, 1, 1, 1, 4096, 0, 4095], [4095, 4095], 10, 10),
    ] {
        asked(l, &query(numbers, room), pixel, row);
    }
    list
}

/// The places of a tile's column and row.
const COLUMN: usize = 7;
const ROW: usize = 8;

/// Makes a call on a tile, with as many skip bytes and numbers of open tiles.
fn tile(numbers: [u64; 8], [bytes, rows]: [u64; 2]) -> Line {
    let numbers = [&[0], &numbers[..]].concat();
    Line { numbers, lengths: [0, bytes, 0, 0, 0, rows, 0], ..Line::default() }
}

/// Writes both calls on one tile.
fn both(l: &mut List, line: &Line, number: u64) {
    for which in [BLANK, CLEAR] {
        l.answered(&numbered(line, 0, which), number);
    }
}

/// Returns the conditions of a call on a tile of a grid of 3 by 4.
fn of_a_tile() -> Vec<Condition> {
    vec![
        bad(7, "no width", 1, 0),
        bad(7, "a height above the limit", 2, 4097),
        bad(7, "no tile width", 3, 0),
        bad(7, "no tile height", 4, 0),
        bad(7, "a tile column too few", 5, 2),
        bad(7, "a tile row too many", 6, 5),
        short(10, "the skip bytes", TO),
        short(10, "the count buffer", U16S),
        bad(9, "a tile column outside", COLUMN, 3),
        bad(9, "a tile row outside", ROW, 4),
    ]
}

pub fn blanking() -> List {
    let head = "Refusals of calls that skip a tile by hand, calls 21 (blank) and 22 (clear):";
    let numbers = "7 a side outside 1..4096, a zero tile side, or tile counts that are not the ceilings;";
    let others = "10 skip bytes under tiles-x * tiles-y or a count buffer under tiles-y numbers; 9 a tile column not \
        below tiles-x or a tile row not below tiles-y; 0 answered by a plain walk (asked.rs).";
    let keeps = "A refused call leaves both buffers as they were.";
    let mut list = List::new("blanking_refusals", &[head, TILE, numbers, others, BY_BOTH, keeps]);
    let l = &mut list;
    // A picture of 8 by 7 in tiles of 3 by 2 has 3 by 4 of them.
    let good = tile([8, 7, 3, 2, 3, 4, 2, 3], [12, 4]);
    combined(l, &good, &of_a_tile(), both);
    l.comment("tile columns and rows at their ends; each bound is its own axis's, also where the buffers are longer");
    let far = u64::MAX;
    let longer = lent(&lent(&good, TO, 20), U16S, 9);
    for line in [numbered(&good, 0, BLANK), numbered(&longer, 0, CLEAR)] {
        limits(l, &line, COLUMN, &[0, 1, 2], &[3, 4, 1 << 32, far], 9);
        limits(l, &line, ROW, &[0, 1, 2, 3], &[4, 5, 1 << 32, far], 9);
        l.refused(&numbered(&numbered(&line, COLUMN, far), ROW, far), 9);
        l.refused(&numbered(&numbered(&line, COLUMN, 3), ROW, 0), 9);
        l.refused(&numbered(&numbered(&line, COLUMN, 0), ROW, 4), 9);
    }
    l.comment(
        "buffers exact, one short, none and longer; more tiles in a row than rows, and fewer; sides at the limit",
    );
    for numbers in [
        [8, 7, 3, 2, 3, 4, 0, 0],
        [7, 8, 2, 3, 4, 3, 3, 2],
        [5, 1, 1, 1, 5, 1, 4, 0],
        [1, 5, 1, 1, 1, 5, 0, 4],
        [290, 1, 1, 1, 290, 1, 289, 0],
        [1, 290, 1, 1, 1, 290, 0, 289],
        [4096, 1, 1024, 1, 4, 1, 3, 0],
        [1, 4096, 1, 1024, 1, 4, 0, 3],
        [9, 9, far, far, 1, 1, 0, 0],
    ] {
        let [tiles_x, tiles_y] = [numbers[4], numbers[5]];
        let exact = tile(numbers, [tiles_x * tiles_y, tiles_y]);
        both(l, &exact, 0);
        for slice in [TO, U16S] {
            both(l, &lent(&exact, slice, exact.lengths[slice] - 1), 10);
            both(l, &lent(&exact, slice, 0), 10);
            both(l, &lent(&exact, slice, exact.lengths[slice] + 3), 0);
        }
        both(l, &lent(&lent(&exact, TO, 0), U16S, 0), 10);
    }
    l.comment("sides of 0 and above the limit, the largest tiles, counts one off on either side and exchanged");
    for numbers in [
        [4097, 1, 1024, 1, 5, 1, 0, 0],
        [1, 4097, 1, 1024, 1, 5, 0, 0],
        [0, 7, 3, 2, 0, 4, 0, 0],
        [8, 0, 3, 2, 3, 0, 0, 0],
        [8, 7, far, far, 0, 1, 0, 0],
        [8, 7, far, far, 1, far, 0, 0],
        [8, 7, 3, 2, 2, 4, 0, 0],
        [8, 7, 3, 2, 4, 4, 0, 0],
        [8, 7, 3, 2, 3, 3, 0, 0],
        [8, 7, 3, 2, 3, 5, 0, 0],
        [8, 7, 3, 2, 4, 3, 0, 0],
        [8, 7, 3, 2, 0, 0, 0, 0],
    ] {
        both(l, &tile(numbers, [40, 9]), 7);
    }
    list
}
