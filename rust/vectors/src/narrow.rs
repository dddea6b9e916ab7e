//! Makes the lists of the narrow Sauvola, whose workspace is u32s. It makes what Sauvola makes, so the published Rust
//! answers it. Document 02 says which windows it refuses.

use crate::asked::SAUVOLA_NARROW;
use crate::conditions::{bad, condition, lent, limits, numbered, pictured, DESTINATION, SOURCE};
use crate::list::{Line, List, U32S};
use crate::picture::{noise, Picture};
use crate::readings::WINDOW;
use crate::refusals::{all, operator, packed, BY_BOTH, KEEPS, LAYOUTS, SETTINGS};
use crate::stored::{asked, judged, room, window, EXACT, RUST};

/// The place of k.
const K: usize = SETTINGS + 1;
/// The place of the range.
const RANGE: usize = SETTINGS + 2;

/// A picture of 66,052 pixels, the first number above the limit: 196 by 337.
const ABOVE: [u64; 4] = [66_052, 196, 337, 196];

/// Returns light that falls off, with grain and strokes.
fn page(width: usize, height: usize) -> Vec<u8> {
    let grain = noise(width * height, 71);
    (0..width * height)
        .map(|i| {
            let (x, y) = (i % width, i / width);
            let stroke = (x + 2 * y) % 7 < 2;
            120 + 4 * x as u8 + 2 * y as u8 + grain[i] / 32 - if stroke { 90 } else { 0 }
        })
        .collect()
}

pub fn sauvola() -> List {
    let head = "The narrow Sauvola, call 23: width height stride of both pictures, radius k-milli dynamic-range dark";
    let mut list = List::new("sauvola_narrow", &[head, "light.", RUST, EXACT]);
    let l = &mut list;
    judged(l, SAUVOLA_NARROW);
    let mut each = |what: &str, picture: &Picture, stride: usize, tail: usize, radii: &[u64]| {
        l.comment(what);
        for &radius in radii {
            asked(l, SAUVOLA_NARROW, picture, stride, tail, &window(radius, 200, 128));
        }
    };
    let wide = Picture::new(20, 14, 23, 4, &page(20, 14));
    each("windows clipped at a border and at a corner, both sides strided", &wide, 21, 3, &[1, 3, 6]);
    each("then at two opposite borders: above and below", &wide, 20, 0, &[7, 9]);
    each("then at all four, and at the ends of numbers of 32 and of 64 bits", &wide, 22, 1, &[19, u64::MAX]);
    let ends = [(1 << 31) - 1, 1 << 31, (1 << 32) - 1, 1 << 32, (1 << 63) - 1, 1 << 63, (1 << 63) + 3, u64::MAX - 1];
    each("a smaller page there", &Picture::new(9, 7, 9, 1, &page(9, 7)), 10, 2, &ends);
    let high = Picture::new(11, 25, 12, 0, &page(11, 25));
    each("a page higher than wide: clipped at a border, then left and right", &high, 11, 5, &[4, 5, 8, 12, 24]);
    let one = Picture::new(1, 1, 3, 2, &[200]);
    each("one pixel, at the ends of numbers of 32 and of 64 bits", &one, 2, 1, &[&ends[..], &[u64::MAX]].concat());
    each("white", &Picture::packed(17, 17, &[255; 289]), 19, 0, &[2, 8, u64::MAX]);
    each("black", &Picture::packed(17, 17, &[0; 289]), 17, 2, &[8]);
    list
}

/// Gives both pictures sides whose largest window is 66,052 pixels, by the largest radius. The workspace stays as much
/// too short as it was.
fn too_large(line: &Line) -> Line {
    let exact = |line: &Line| room(SAUVOLA_NARROW, line.numbers[1], line.numbers[2], &[])[3];
    let missing = exact(line) - line.lengths[U32S];
    let line = numbered(line, SETTINGS, u64::MAX);
    let line = pictured(&pictured(&line, SOURCE, ABOVE), DESTINATION, ABOVE);
    let room = exact(&line) - missing;
    lent(&line, U32S, room)
}

/// Writes a picture of these sides with each radius, and the number that document 02 gives.
fn sized(l: &mut List, width: u64, height: u64, radii: &[u64], number: u64) {
    for &radius in radii {
        l.answered(&packed(SAUVOLA_NARROW, width, height, &window(radius, 200, 128)), number);
    }
}

/// Writes largest windows of 66,051 pixels and around it.
fn windows(l: &mut List) {
    let far = u64::MAX;
    l.comment("257 by 257 passes by every radius; 66,051 pixels pass, 66,052 do not");
    sized(l, 257, 257, &[1, 127, 128, 129, 1 << 32, 1 << 63, far], 0);
    sized(l, 369, 179, &[88, 89, 90, 183, 184, 185, far], 0);
    sized(l, 179, 369, &[184, far], 0);
    sized(l, 196, 337, &[1, 97, 98, 167], 0);
    sized(l, 196, 337, &[168, 169, 4096], 12);
    sized(l, 337, 196, &[167], 0);
    sized(l, 337, 196, &[168], 12);
    l.comment("radii whose double wraps in 32 or in 64 bits");
    sized(l, 196, 337, &[1 << 31, (1 << 31) + 1, 1 << 32, (1 << 32) + 1, 1 << 63, (1 << 63) + 1, far - 1, far], 12);
    l.comment("one more column, one more row, both");
    for (width, height) in [(258, 257), (257, 258)] {
        sized(l, width, height, &[128], 0);
        sized(l, width, height, &[129], 12);
    }
    sized(l, 258, 258, &[128], 0);
    sized(l, 258, 258, &[129], 12);
    l.comment("windows that are clipped along one axis alone: 17 by 3,885 passes, 17 by 3,887 does not");
    for (width, height, narrower) in [(4096, 17, (4096, 16)), (17, 4096, (16, 4096))] {
        sized(l, width, height, &[1, 8, 128, 1942], 0);
        sized(l, width, height, &[1943, 4095, far], 12);
        sized(l, narrower.0, narrower.1, &[far], 0);
    }
    l.comment("the workspace exact, one short and none at the limit; none for a window above it");
    let limit = packed(SAUVOLA_NARROW, 369, 179, &window(184, 200, 128));
    l.answered(&limit, 0);
    l.refused(&lent(&limit, U32S, limit.lengths[U32S] - 1), 8);
    l.refused(&lent(&limit, U32S, 0), 8);
    l.refused(&lent(&packed(SAUVOLA_NARROW, 196, 337, &window(168, 200, 128)), U32S, 0), 12);
}

/// Writes sides above 4,096 and other settings out of range beside a window that is too large.
fn beside(l: &mut List) {
    let above = too_large(&operator(SAUVOLA_NARROW, &window(8, 200, 128)));
    l.comment("sides above 4,096 whose window is too large all the same");
    for side in [[69_649, 4097, 17, 4097], [69_649, 17, 4097, 17]] {
        l.refused(&pictured(&above, SOURCE, side), 4);
        l.refused(&pictured(&above, DESTINATION, side), 4);
        l.refused(&pictured(&pictured(&above, SOURCE, side), DESTINATION, side), 4);
    }
    l.comment("a source whose window is too large and a destination whose window is not, and the other way round");
    let small = [66_049, 257, 257, 257];
    l.refused(&pictured(&above, DESTINATION, small), 5);
    l.refused(&pictured(&above, SOURCE, small), 5);
    l.comment("settings out of range, with such a picture and no workspace; radius 0 has no window");
    let none = lent(&above, U32S, 0);
    l.refused(&none, 12);
    for (place, value) in [(SETTINGS, 0), (K, 1001), (RANGE, 0)] {
        l.refused(&numbered(&none, place, value), 7);
    }
}

pub fn refusals() -> List {
    let head = "Refusals of the narrow Sauvola, call 23: width height stride of both pictures,";
    let numbers = "7 settings; 12 a largest window above 66,051 pixels; 8 the workspace, of u32s; 0 accepted.";
    let mut l = List::new("sauvola_narrow_refusals", &[head, WINDOW, LAYOUTS, numbers, BY_BOTH, KEEPS]);
    let conditions = vec![
        bad(7, "the radius", SETTINGS, 0),
        bad(7, "k", K, 1001),
        bad(7, "the range", RANGE, 0),
        condition(12, "the window", too_large),
    ];
    let large = u64::from(u32::MAX);
    all(&mut l, &operator(SAUVOLA_NARROW, &window(8, 200, 128)), conditions, U32S, |l, good| {
        limits(l, good, SETTINGS, &[1, 4096, 65_536, 1 << 63, u64::MAX], &[0], 7);
        limits(l, good, K, &[0, 1, 999, 1000], &[1001, large], 7);
        limits(l, good, RANGE, &[1, large], &[0], 7);
    });
    windows(&mut l);
    beside(&mut l);
    l
}
