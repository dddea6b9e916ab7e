//! Makes the text that the program `column` has to write for the picture in its folder.

use crate::chain::Settings;
use crate::program;

pub const WIDTH: usize = 24;
pub const HEIGHT: usize = 30;
pub const INPUT: &[u8] = include_bytes!("../../../crates/column/stdin");

/// Returns the bytes after the header.
pub fn pixels() -> &'static [u8] {
    let header = program::form(WIDTH, HEIGHT, &[]);
    INPUT.strip_prefix(header.as_slice()).expect("a picture of these sides")
}

/// Returns the line that answers the picture, and the rows of the destination, '#' for dark.
pub fn text() -> String {
    let (line, marked) = program::line(WIDTH, HEIGHT, pixels());
    let mark = |&value: &u8| if value == Settings::default().sauvola.dark_value { '#' } else { '.' };
    let rows = marked.chunks(WIDTH).map(|row| row.iter().map(mark).chain(['\n']).collect::<String>());
    [line].into_iter().chain(rows).collect()
}
