//! Writes the conditions under which a call is refused: each alone, each pair of them, and each limit. The numbers are
//! documents 01's and 02's, and the earlier condition of a pair counts. No program computes them.

use crate::list::{Line, List, FROM, TO};

/// The place of a picture's sides among the numbers, and that of its slice among the lengths.
pub type Place = (usize, usize);
pub const SOURCE: Place = (1, FROM);
pub const DESTINATION: Place = (4, TO);

/// Gives a line another picture: its length, its sides and its stride.
pub fn pictured(line: &Line, (sides, length): Place, [bytes, width, height, stride]: [u64; 4]) -> Line {
    let mut line = line.clone();
    line.numbers[sides..sides + 3].copy_from_slice(&[width, height, stride]);
    line.lengths[length] = bytes;
    line
}

pub fn numbered(line: &Line, index: usize, value: u64) -> Line {
    let mut line = line.clone();
    line.numbers[index] = value;
    line
}

pub fn lent(line: &Line, slice: usize, length: u64) -> Line {
    let mut line = line.clone();
    line.lengths[slice] = length;
    line
}

/// A condition under which a call is refused: its number, its name, and a change that makes it hold.
pub type Condition = (u64, String, Box<dyn Fn(&Line) -> Line>);

pub fn condition(number: u64, what: &str, change: impl Fn(&Line) -> Line + 'static) -> Condition {
    (number, what.to_owned(), Box::new(change))
}

/// Returns the condition that a number of the line has a bad value.
pub fn bad(number: u64, what: &str, index: usize, value: u64) -> Condition {
    condition(number, what, move |line| numbered(line, index, value))
}

/// Returns the condition that a slice is one short.
pub fn short(number: u64, what: &str, slice: usize) -> Condition {
    condition(number, what, move |line| lent(line, slice, line.lengths[slice] - 1))
}

/// Returns the conditions of a picture's layout, in document 01's order.
pub fn layout(what: &str, place: Place) -> Vec<Condition> {
    let (sides, length) = place;
    vec![
        bad(1, &format!("{what} empty"), sides + 1, 0),
        condition(2, &format!("{what} stride"), move |l| numbered(l, sides + 2, l.numbers[sides] - 1)),
        condition(3, &format!("{what} slice"), move |l| {
            let [width, height, stride] = [0, 1, 2].map(|i| l.numbers[sides + i]);
            lent(l, length, stride * (height - 1) + width - 1)
        }),
        condition(4, &format!("{what} side"), move |l| pictured(l, place, [4097, 4097, 1, 4097])),
    ]
}

/// Returns the conditions of the source's layout, of the destination's, then of sizes that differ.
pub fn pictures() -> Vec<Condition> {
    let mut all = layout("source", SOURCE);
    all.extend(layout("destination", DESTINATION));
    all.push(condition(5, "sizes that differ", |line| pictured(line, DESTINATION, [10, 4, 2, 6])));
    all
}

/// Writes a good call, each condition alone, then each pair. The later of two is applied first, so that the earlier one
/// holds as well. `answered` writes a call and its number.
pub fn combined(l: &mut List, good: &Line, conditions: &[Condition], answered: impl Fn(&mut List, &Line, u64)) {
    answered(l, good, 0);
    l.comment("each condition alone");
    for (number, _, change) in conditions {
        answered(l, &change(good), *number);
    }
    for (index, (number, what, change)) in conditions.iter().enumerate() {
        if index + 1 < conditions.len() {
            l.comment(&format!("{what}, with each later condition"));
        }
        for (_, _, later) in &conditions[index + 1..] {
            answered(l, &change(&later(good)), *number);
        }
    }
}

/// Writes calls with a number of the line at values that are accepted, and at values that are refused.
pub fn limits(l: &mut List, good: &Line, index: usize, accepted: &[u64], refused: &[u64], number: u64) {
    accepted.iter().for_each(|&value| l.answered(&numbered(good, index, value), 0));
    refused.iter().for_each(|&value| l.answered(&numbered(good, index, value), number));
}
