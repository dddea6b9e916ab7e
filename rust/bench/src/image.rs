//! Times copies to and from a packed plane, and calls for single pixels and rows, over a whole picture.

use crate::time::{row, Pair, Row};
use imgproc::image;
use qr_lab_image::{Gray8View, Gray8ViewMut};

fn view(pair: &Pair) -> Gray8View<'_> {
    Gray8View::new(&pair.src, pair.g.width, pair.g.height, pair.g.stride).expect("a good layout")
}

fn view_mut(pair: &mut Pair) -> (Gray8View<'_>, Gray8ViewMut<'_>) {
    let Pair { src, dst, g } = pair;
    let src = Gray8View::new(src, g.width, g.height, g.stride).expect("a good layout");
    (src, Gray8ViewMut::new(dst, g.width, g.height, g.stride).expect("a good layout"))
}

pub fn measure(rows: &mut Vec<Row>) {
    rows.push(row(
        "pack",
        Pair::new,
        |pair| image::pack(&pair.src, pair.g, &mut pair.dst, 0).expect("accepted"),
        |pair| {
            let Pair { src, dst, g } = pair;
            let src = Gray8View::new(src, g.width, g.height, g.stride).expect("a good layout");
            dst.clear();
            for y in 0..g.height {
                dst.extend_from_slice(src.row(y));
            }
        },
        |pair| &pair.dst,
    ));
    rows.push(row(
        "unpack",
        Pair::new,
        |pair| image::unpack(&pair.src, 0, &mut pair.dst, pair.g).expect("accepted"),
        |pair| {
            let Pair { src, dst, g } = pair;
            let mut dst = Gray8ViewMut::new(dst, g.width, g.height, g.stride).expect("a good layout");
            for (y, row) in src.chunks_exact(g.width).enumerate() {
                dst.row_mut(y).copy_from_slice(row);
            }
        },
        |pair| &pair.dst,
    ));
    rows.push(row(
        "row, one call a row",
        Pair::new,
        |pair| {
            let (g, width) = (pair.g, pair.g.width);
            for (y, out) in pair.dst.chunks_exact_mut(width).enumerate() {
                image::copy_row(&pair.src, g, y, out).expect("accepted");
            }
        },
        |pair| {
            let (src, mut dst) = view_mut(pair);
            for y in 0..src.height() {
                dst.row_mut(y).copy_from_slice(src.row(y));
            }
        },
        |pair| &pair.dst,
    ));
    rows.push(row(
        "get, one call a pixel",
        Pair::new,
        |pair| {
            let mut sum = 0u8;
            for y in 0..pair.g.height {
                for x in 0..pair.g.width {
                    sum = sum.wrapping_add(image::get(&pair.src, pair.g, x, y).expect("accepted"));
                }
            }
            pair.dst[0] = sum;
        },
        |pair| {
            let src = view(pair);
            let mut sum = 0u8;
            for y in 0..src.height() {
                for x in 0..src.width() {
                    sum = sum.wrapping_add(src.get(x, y));
                }
            }
            pair.dst[0] = sum;
        },
        |pair| &pair.dst,
    ));
    rows.push(row(
        "set, one call a pixel",
        Pair::new,
        |pair| {
            for y in 0..pair.g.height {
                for x in 0..pair.g.width {
                    image::set(&mut pair.dst, pair.g, x, y, (x + y) as u8).expect("accepted");
                }
            }
        },
        |pair| {
            let (_, mut dst) = view_mut(pair);
            for y in 0..dst.height() {
                for x in 0..dst.width() {
                    dst.set(x, y, (x + y) as u8);
                }
            }
        },
        |pair| &pair.dst,
    ));
}
