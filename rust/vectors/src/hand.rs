//! Writes the calls on one picture. Tables written by hand from document 01 (rust/vectors/hand) give the pictures, the
//! places and the numbers. Each row of a table becomes one case for every call that it fits.

use crate::asked::{CHECK_PIXEL, CHECK_ROW, GET, LAYOUT, PACK, ROW, ROW_MUT, SET, UNPACK};
use crate::list::{Line, List, FROM};

/// The longest slice that crates/pictures lends. The check calls get a longer one as a length alone.
const LENT: u64 = 8192;

/// A row of a table, whose numbers are taken from its front.
struct Row<'a>(&'a [u64]);

impl Row<'_> {
    fn numbers<const N: usize>(&mut self) -> [u64; N] {
        let (taken, rest) = self.0.split_at(N);
        self.0 = rest;
        taken.try_into().expect("as many as were split off")
    }

    fn bytes(&mut self, count: u64) -> Vec<u8> {
        let (taken, rest) = self.0.split_at(count as usize);
        self.0 = rest;
        taken.iter().map(|&number| u8::try_from(number).expect("a byte")).collect()
    }
}

/// Makes a list from a table: the table's comments but for those at its head, and the cases that `asked` makes of a
/// row.
fn from_table(name: &str, table: &str, what: &str, asked: impl Fn(&mut List, &mut Row)) -> List {
    let by_hand = format!("The numbers are written by hand from document 01 (rust/vectors/hand/{name}.txt).");
    let mut list = List::new(name, &[what, &by_hand]);
    for line in table.lines().skip_while(|line| line.starts_with('#')) {
        if let Some(comment) = line.strip_prefix("# ") {
            list.comment(comment);
            continue;
        }
        let numbers: Vec<u64> = line.split(' ').map(|number| number.parse().expect("a number")).collect();
        let mut row = Row(&numbers);
        asked(&mut list, &mut row);
        assert!(row.0.is_empty(), "{name}: numbers are left of {line}");
    }
    list
}

/// A picture: its slice's length, its sides and its stride.
type Picture = [u64; 4];

/// Makes a call on a picture. The picture is the first slice, or the second if the call writes it; the other slice has
/// the given length.
fn line(which: u64, [length, width, height, stride]: Picture, others: &[u64], second: u64) -> Line {
    let numbers = [&[which, width, height, stride], others].concat();
    let [from, to] = if [SET, ROW_MUT, UNPACK].contains(&which) { [second, length] } else { [length, second] };
    Line { numbers, lengths: [from, to, 0, 0, 0, 0, 0], ..Line::default() }
}

/// Writes each call that takes a place. The other slice of a row call has a byte more than the row.
fn place(l: &mut List, picture: Picture, x: u64, y: u64, pixel: u64, row: u64) {
    let [length, width, _, _] = picture;
    let checked = |which, others: &[u64]| Line { lengths: [0; 7], ..line(which, picture, others, 0) };
    l.answered(&checked(CHECK_PIXEL, &[length, x, y]), pixel);
    l.answered(&checked(CHECK_ROW, &[length, y]), row);
    if length > LENT {
        return;
    }
    l.answered(&line(GET, picture, &[x, y], 0), pixel);
    l.answered(&line(SET, picture, &[x, y, 7], 0), pixel);
    let beside = if row == 0 { width + 1 } else { 3 };
    l.answered(&line(ROW, picture, &[y], beside), row);
    l.answered(&line(ROW_MUT, picture, &[y], beside), row);
}

/// Writes both copies, with a workspace of some length and the plane from a place on.
fn plane(l: &mut List, picture: Picture, room: u64, at: u64, number: u64) {
    l.answered(&line(PACK, picture, &[at], room), number);
    l.answered(&line(UNPACK, picture, &[at], room), number);
}

pub fn layouts() -> List {
    let what =
        "Layouts: calls 0 to 8 (layout, check_pixel, check_row, get, set, row, row_mut, pack, unpack), at (0, 0).";
    from_table("layouts", include_str!("../hand/layouts.txt"), what, |l, row| {
        let picture: Picture = row.numbers();
        let [number] = row.numbers();
        l.answered(&Line { lengths: [0; 7], ..line(LAYOUT, picture, &[picture[FROM]], 0) }, number);
        place(l, picture, 0, 0, number, number);
        if picture[FROM] <= LENT && number != 0 {
            plane(l, picture, 64, 0, number);
        }
    })
}

pub fn places() -> List {
    let what = "Places: calls 1 to 6 (check_pixel, check_row, get, set, row, row_mut).";
    from_table("places", include_str!("../hand/places.txt"), what, |l, row| {
        let picture: Picture = row.numbers();
        let [x, y, pixel, number] = row.numbers();
        place(l, picture, x, y, pixel, number);
    })
}

pub fn planes() -> List {
    let what = "Planes: calls 7 and 8 (pack, unpack).";
    from_table("planes", include_str!("../hand/planes.txt"), what, |l, row| {
        let picture: Picture = row.numbers();
        let [room, at, number] = row.numbers();
        plane(l, picture, room, at, number);
    })
}

pub fn pixels() -> List {
    let what = "Pixels that are read and written: calls 3 and 4 (get, set).";
    from_table("pixels", include_str!("../hand/pixels.txt"), what, |l, row| {
        let picture: Picture = row.numbers();
        let [x, y, held, value] = row.numbers();
        let (before, after) = (row.bytes(picture[FROM]), row.bytes(picture[FROM]));
        let get = Line { from: before.clone(), ..line(GET, picture, &[x, y], 0) };
        assert_eq!(l.accepted(&get).values, [held]);
        let set = Line { before, ..line(SET, picture, &[x, y, value], 0) };
        assert_eq!(l.accepted(&set).left.to, after);
    })
}

pub fn rows() -> List {
    let what = "Rows that are read, and written through the part that is handed out: calls 5 and 6 (row, row_mut).";
    from_table("rows", include_str!("../hand/rows.txt"), what, |l, row| {
        let picture: Picture = row.numbers();
        let [y] = row.numbers();
        let width = picture[1];
        let (before, held) = (row.bytes(picture[FROM]), row.bytes(width));
        let (other, after) = (row.bytes(width), row.bytes(picture[FROM]));
        let read = Line { from: before.clone(), ..line(ROW, picture, &[y], width + 1) };
        assert_eq!(l.accepted(&read).left.to[..width as usize], held);
        let write = Line { from: [other, vec![0]].concat(), before, ..line(ROW_MUT, picture, &[y], width + 1) };
        assert_eq!(l.accepted(&write).left.to, after);
    })
}

pub fn pack() -> List {
    from_table("pack", include_str!("../hand/pack.txt"), "Pictures that are packed: call 7.", |l, row| {
        let picture: Picture = row.numbers();
        let [room, at] = row.numbers();
        let (from, before) = (row.bytes(picture[FROM]), row.bytes(room));
        let packed = l.accepted(&Line { from, before, ..line(PACK, picture, &[at], room) });
        assert_eq!(packed.left.to, row.bytes(room));
    })
}

pub fn unpack() -> List {
    from_table("unpack", include_str!("../hand/unpack.txt"), "Planes that are unpacked: call 8.", |l, row| {
        let picture: Picture = row.numbers();
        let [room, at] = row.numbers();
        let (from, before) = (row.bytes(room), row.bytes(picture[FROM]));
        let unpacked = l.accepted(&Line { from, before, ..line(UNPACK, picture, &[at], room) });
        assert_eq!(unpacked.left.to, row.bytes(picture[FROM]));
    })
}
