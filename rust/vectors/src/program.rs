//! Makes inputs of the program `reading`, good and malformed, and the line that answers each.

use crate::asked;
use crate::chain::{read, room, Counts, Settings};
use crate::column;
use crate::list::{Line, List};
use crate::picture::{noise, Destination, Picture};

/// The lengths of the slices that a call is lent: destination, byte workspace, u64 workspace and line.
#[derive(Clone, Copy)]
struct Lent {
    destination: usize,
    bytes: usize,
    u64s: usize,
    out: usize,
}

/// The lengths that the program lends: enough for 60 by 60 pixels, and 128 bytes for the line.
const PROGRAM: Lent = Lent { destination: 3600, bytes: 32_432, u64s: 7522, out: 128 };

/// Writes a case. A picture is marked in the destination; if the input is none, the destination and the workspaces stay
/// as they were.
fn case(l: &mut List, input: &[u8], lent: Lent, line: &str, marked: Option<&[u8]>) {
    let lengths = [input.len(), lent.destination, lent.out, lent.bytes, lent.u64s, 0, 0].map(|length| length as u64);
    let numbers = vec![asked::PROGRAM, u64::from(marked.is_none())];
    l.printed(&Line { numbers, lengths, from: input.to_vec(), ..Line::default() }, line, marked);
}

fn refused(l: &mut List, input: &[u8], lent: Lent, number: u32) {
    case(l, input, lent, &format!("refused {number}\n"), None);
}

/// Returns a picture in document 01's form.
pub fn form(width: usize, height: usize, pixels: &[u8]) -> Vec<u8> {
    let header = format!("P5 {width} {height} 255\n");
    [header.as_bytes(), pixels].concat()
}

/// Returns the line for a picture, from the Rust's chain with the program's settings, and the marked destination.
pub fn line(width: usize, height: usize, pixels: &[u8]) -> (String, Vec<u8>) {
    let picture = Picture::packed(width, height, pixels);
    let mut marked = Destination::packed(width, height);
    let counts = read(&picture, &mut marked, &Settings::default());
    let Counts { dark, light, skipped, comparisons, .. } = counts;
    (format!("{width} {height} {dark} {light} {skipped} {comparisons}\n"), marked.bytes)
}

/// Writes a picture. The destination of a small one is short enough to be listed.
fn good(l: &mut List, what: &str, width: usize, height: usize, pixels: &[u8]) -> String {
    l.comment(what);
    let (line, marked) = line(width, height, pixels);
    let destination = if marked.len() < 256 { 256 } else { PROGRAM.destination };
    case(l, &form(width, height, pixels), Lent { destination, ..PROGRAM }, &line, Some(&marked));
    line
}

/// Returns a page with strokes in its first quarter, and nothing in the others.
fn page(width: usize, height: usize) -> Vec<u8> {
    let grain = noise(width * height, 51);
    (0..width * height)
        .map(|i| {
            let (x, y) = (i % width, i / width);
            let stroke = x < width / 4 && (x + y) % 7 < 3;
            (if stroke { 30 } else { 180 }) + grain[i] / 64
        })
        .collect()
}

fn pictures(l: &mut List) {
    assert_eq!(good(l, "document 01's row", 2, 1, &[0, 200]), "2 1 0 0 2 24\n");
    good(l, "one pixel", 1, 1, &[7]);
    good(l, "a line feed as the first pixel", 1, 2, b"\n7");
    good(l, "digits and spaces as pixels", 5, 1, b" 255\n");
    let mixed = good(l, "sides of two digits; dark, light and skipped pixels", 60, 17, &page(60, 17));
    assert!(mixed.split_whitespace().all(|number| number != "0"), "{mixed}");
    good(l, "the longest row", 60, 1, &noise(60, 52));
    good(l, "the longest column", 1, 60, &noise(60, 53));
    good(l, "the largest picture", 60, 60, &page(60, 60));
    good(l, "the picture of crates/column", column::WIDTH, column::HEIGHT, column::pixels());
    l.comment("a side of 0 is of legal form, and the picture is empty");
    for (width, height) in [(0, 5), (5, 0), (0, 0), (60, 0), (0, 60)] {
        refused(l, &form(width, height, &[]), PROGRAM, 1);
    }
}

/// Whole inputs of another form, separated by '|'.
const MALFORMED: [(&str, &str); 4] = [
    ("nothing, and parts of the form", "|P|P5|P5 |P5 2|P5 2 |P5 2 1|P5 2 1 255|P5 2 1 255\n"),
    ("a byte missing, and a byte too many", "P5 2 1 255\n0|P5 2 1 255\n000|P5 0 5 255\n0|P5 1 1 255\n0\n"),
    ("two zeros for a side, and a side that would be 0 in fewer bits", "P5 00 5 255\n|P5 256 0 255\n"),
    ("sides above 60 that are empty", "P5 61 0 255\n|P5 0 61 255\n|P5 600 0 255\n"),
];

/// Headers of another form, separated by '|'. Two pixels follow each.
const HEADERS: [(&str, &str); 8] = [
    ("another kind of picture", "P2 2 1 255\n|P6 2 1 255\n|p5 2 1 255\n| P5 2 1 255\n|\u{feff}P5 2 1 255\n"),
    ("two spaces, a tab, a line feed for a space", "P5  2 1 255\n|P5 2  1 255\n|P5\t2 1 255\n|P5\n2 1 255\n"),
    ("a line feed or a space too many", "P5 2 1\n255\n|P5 2 1 255\n\n|P5 2 1 255 \n"),
    (
        "a carriage return, no line feed, a comment",
        "P5 2 1 255\r\n|P5 2 1 255 |P5 # made\n2 1 255\n|P5 2 1 255# \n|#\nP5 2 1 255\n",
    ),
    ("leading zeros and signs", "P5 02 1 255\n|P5 2 01 255\n|P5 +2 1 255\n|P5 -2 1 255\n"),
    ("other digits", "P5 2.0 1 255\n|P5 0x2 1 255\n|P5 : 1 255\n|P5 / 1 255\n"),
    (
        "another largest sample",
        "P5 2 1 254\n|P5 2 1 256\n|P5 2 1 0255\n|P5 2 1 65535\n|P5 2 1 25\n|P5 2 1 2555\n|P5 2 1 \n",
    ),
    (
        "sides that would be 2 and 1 in fewer bits",
        "P5 258 1 255\n|P5 65538 1 255\n|P5 4294967298 1 255\n|P5 2 18446744073709551617 255\n\
         |P5 18446744073709551618 1 255\n|P5 340282366920938463463374607431768211458 1 255\n",
    ),
];

fn malformed(l: &mut List) {
    for (what, inputs) in MALFORMED {
        l.comment(what);
        inputs.split('|').for_each(|input| refused(l, input.as_bytes(), PROGRAM, 11));
    }
    for (what, headers) in HEADERS {
        l.comment(what);
        headers.split('|').for_each(|header| refused(l, &[header.as_bytes(), &[0, 200]].concat(), PROGRAM, 11));
    }
    l.comment("61 pixels in a row and in a column; 60 by 60 with a byte too many and with one missing");
    refused(l, &form(61, 1, &noise(61, 54)), PROGRAM, 11);
    refused(l, &form(1, 61, &noise(61, 55)), PROGRAM, 11);
    refused(l, &form(60, 60, &page(60, 60))[..3612], PROGRAM, 11);
    refused(l, &[form(60, 60, &page(60, 60)), vec![0]].concat(), PROGRAM, 11);
}

/// Writes cases with exact slices and with one that is short, for document 01's row in one tile.
fn short(l: &mut List) {
    let input = form(2, 1, &[0, 200]);
    let (bytes, u64s) = room(2, 1, &Settings::default().grid);
    let exact = Lent { destination: 2, bytes, u64s, out: 128 };
    let (answer, marked) = line(2, 1, &[0, 200]);
    l.comment("every slice exact, then the destination, the bytes and the u64s one short");
    case(l, &input, exact, &answer, Some(&marked));
    refused(l, &input, Lent { destination: 1, ..exact }, 3);
    refused(l, &input, Lent { bytes: bytes - 1, ..exact }, 8);
    refused(l, &input, Lent { u64s: u64s - 1, ..exact }, 8);
    refused(l, &input, Lent { destination: 0, bytes: 0, u64s: 0, ..exact }, 3);
    l.comment("less than 128 bytes for the line: none is written; the picture is read all the same");
    for out in [0, 13, 127] {
        case(l, &input, Lent { out, ..exact }, "", Some(&marked));
        case(l, b"P5", Lent { out, ..exact }, "", None);
    }
    l.comment("more than 128 bytes");
    case(l, &input, Lent { out: 200, ..exact }, &answer, Some(&marked));
}

pub fn list() -> List {
    let mut l = List::new(
        "answers",
        &[
            "Inputs of the program reading, call 20: left, which is 1 where the destination and the workspaces stay as",
            "they were, and is the number, too. The slices are the input, the destination, the line, bytes and u64s.",
            "The value is the line's length, and the line begins the third slice afterwards.",
            "The counts are those of the published Rust, aukilabs/qr-lab at c99d6ca466, whose calls are made one after",
            "the other (rust/vectors/src/chain.rs) with document 01's settings; which inputs are refused, and the",
            "numbers, are document 01's, and no program was asked.",
        ],
    );
    pictures(&mut l);
    malformed(&mut l);
    short(&mut l);
    l
}
