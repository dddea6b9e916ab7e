//! Times erosion, dilation, opening and closing with a small and a large kernel.

use crate::through::pictures;
use crate::time::{Pair, Row};
use imgproc::morphology::{self as ours, workspace_len};
use qr_lab_imgproc::morphology as theirs;

macro_rules! calls {
    ($rows:ident $($call:ident)*) => {
        $(for kernel in [3, 31] {
            $rows.push(pictures(
                format!("{}, kernel {kernel}", stringify!($call)),
                workspace_len,
                |pair, workspace| {
                    let Pair { src, dst, g } = pair;
                    ours::$call(src, *g, dst, *g, kernel, workspace).map(|_| ())
                },
                |src, dst, workspace| theirs::$call(src, dst, kernel, workspace),
            ));
        })*
    };
}

pub fn measure(rows: &mut Vec<Row>) {
    calls!(rows grayscale_erode_into grayscale_dilate_into grayscale_open_into grayscale_close_into);
}
