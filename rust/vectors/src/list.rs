//! Writes a list of cases, which crates/pictures replays. A line has these sections, separated by ';': the call and its
//! numbers; the lengths of the seven lent slices; the number and the values of the answer; the bytes of the first slice
//! before the call, of the second before it, of the second after it, and of the third after it; the numbers of the
//! count buffer before the call and after it. A slice whose bytes before the call do not stand in the line holds noise.

use crate::asked;
use crate::picture::{noise, states};
use std::fmt::Write;

/// The places of the slices among the lengths: a source, a destination, another destination, the byte workspace, the
/// u64 workspace, the count buffer and the u32 workspace.
pub const FROM: usize = 0;
pub const TO: usize = 1;
pub const OTHER: usize = 2;
pub const BYTES: usize = 3;
pub const U64S: usize = 4;
pub const U16S: usize = 5;
pub const U32S: usize = 6;

/// The longest slice whose contents after a call are listed.
const LISTED: usize = 300;

/// A call: its own number and its numeric arguments, the lengths, the listed bytes of the first two slices, and the
/// listed numbers of the count buffer.
#[derive(Clone, Default)]
pub struct Line {
    pub numbers: Vec<u64>,
    pub lengths: [u64; 7],
    pub from: Vec<u8>,
    pub before: Vec<u8>,
    pub open_tiles: Vec<u16>,
}

/// The lent slices that a call may write, and the count buffer, which a query only reads.
#[derive(Clone, Default)]
pub struct Written {
    pub to: Vec<u8>,
    pub other: Vec<u8>,
    pub open_tiles: Vec<u16>,
}

/// The values of an accepted call, and the slices as it leaves them.
pub struct Answer {
    pub values: Vec<u64>,
    pub left: Written,
}

#[derive(Default)]
pub struct List {
    text: String,
    cases: u64,
}

impl List {
    /// Begins a list. Its head says what it holds and how it was made.
    pub fn new(name: &str, head: &[&str]) -> Self {
        let form = "A line: call numbers; lengths; number values; bytes before and after (rust/vectors/src/list.rs).";
        let mut list = Self::default();
        let mut line = String::new();
        for word in [head, &[form]].concat().join(" ").split(' ') {
            if line.len() + 1 + word.len() > 116 {
                list.comment(&line);
                line.clear();
            }
            line = if line.is_empty() { word.to_owned() } else { format!("{line} {word}") };
        }
        list.comment(&line);
        list.comment(&format!("Made by cargo run --release -p vectors -- {name}"));
        list
    }

    pub fn comment(&mut self, line: &str) {
        writeln!(self.text, "# {line}").expect("a string takes every line");
    }

    /// Returns the seed of the noise of a slice of the next case.
    fn seed(&self, slice: usize) -> u32 {
        let seed = (8 * (self.cases + 1) + slice as u64) as u32;
        seed.wrapping_mul(2_654_435_761)
    }

    /// Returns what a slice of bytes of the next case holds before the call: listed bytes, or the noise that
    /// crates/pictures makes.
    fn held(&self, line: &Line, slice: usize) -> Vec<u8> {
        let listed = [&line.from, &line.before].get(slice).map_or(&[][..], |bytes| bytes);
        if listed.is_empty() {
            return noise(line.lengths[slice] as usize, self.seed(slice));
        }
        assert_eq!(listed.len() as u64, line.lengths[slice], "a byte for each place");
        listed.to_vec()
    }

    /// Does the same for the count buffer.
    fn held_numbers(&self, line: &Line) -> Vec<u16> {
        if line.open_tiles.is_empty() {
            let number = |state: u32| (state >> 16) as u16;
            return states(self.seed(U16S)).map(number).take(line.lengths[U16S] as usize).collect();
        }
        assert_eq!(line.open_tiles.len() as u64, line.lengths[U16S], "a number for each place");
        line.open_tiles.clone()
    }

    /// Writes a refused call, which leaves every slice as it was. The number is document 01's or 02's.
    pub fn refused(&mut self, line: &Line, number: u64) {
        self.write(line, number, &[], &Written::default());
    }

    /// Writes an accepted call, whose answer comes from `asked`.
    pub fn accepted(&mut self, line: &Line) -> Answer {
        let held =
            Written { to: self.held(line, TO), other: self.held(line, OTHER), open_tiles: self.held_numbers(line) };
        let answer = asked::answer(&line.numbers, &self.held(line, FROM), held);
        let Written { to, other, open_tiles } = &answer.left;
        let after = Written { to: short(to), other: short(other), open_tiles: short(open_tiles) };
        self.write(line, 0, &answer.values, &after);
        answer
    }

    /// Writes a call that is refused with a number, or accepted if that is 0.
    pub fn answered(&mut self, line: &Line, number: u64) {
        if number == 0 {
            self.accepted(line);
        } else {
            self.refused(line, number);
        }
    }

    /// Writes an input of the program `reading`. Its answer begins the third slice, and its picture, if it is one, is
    /// marked in the second. The number is 1 if both workspaces and the second slice stay as they were.
    pub fn printed(&mut self, line: &Line, answer: &str, marked: Option<&[u8]>) {
        let (mut to, mut other) = (self.held(line, TO), self.held(line, OTHER));
        let pixels = marked.unwrap_or_default();
        to[..pixels.len()].copy_from_slice(pixels);
        other[..answer.len()].copy_from_slice(answer.as_bytes());
        let to = if marked.is_some() { short(&to) } else { vec![] };
        self.write(
            line,
            u64::from(marked.is_none()),
            &[answer.len() as u64],
            &Written { to, other, open_tiles: vec![] },
        );
    }

    /// Writes a line. A call that is lent no u32s has no length of them, and one that is lent no count buffer either
    /// has no length of one.
    fn write(&mut self, line: &Line, number: u64, values: &[u64], after: &Written) {
        self.cases += 1;
        let last = [U32S, U16S].into_iter().find(|&slice| line.lengths[slice] != 0);
        let lent = last.map_or(U16S, |slice| slice + 1);
        let sections = [
            line.numbers.clone(),
            line.lengths[..lent].to_vec(),
            [&[number], values].concat(),
            wide(&line.from),
            wide(&line.before),
            wide(&after.to),
            wide(&after.other),
            wide(&line.open_tiles),
            wide(&after.open_tiles),
        ];
        let sections = sections.map(|section| section.iter().map(u64::to_string).collect::<Vec<String>>().join(" "));
        let text = sections.join("; ");
        writeln!(self.text, "{}", text.trim_end_matches([' ', ';'])).expect("a string takes every line");
    }

    pub fn text(&self) -> &str {
        &self.text
    }
}

fn wide<T: Copy + Into<u64>>(numbers: &[T]) -> Vec<u64> {
    numbers.iter().map(|&number| number.into()).collect()
}

/// Returns a slice if it is short enough to be listed, or else nothing.
fn short<T: Clone>(slice: &[T]) -> Vec<T> {
    if slice.len() > LISTED {
        vec![]
    } else {
        slice.to_vec()
    }
}
