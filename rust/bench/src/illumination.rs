//! Times division by the background with the default settings, element 31.

use crate::through::pictures;
use crate::time::{Pair, Row};
use imgproc::illumination::{self as ours, workspace_len};
use qr_lab_imgproc::illumination as theirs;

pub fn measure(rows: &mut Vec<Row>) {
    let (config, their_config) = (ours::BackgroundDivideConfig::default(), theirs::BackgroundDivideConfig::default());
    rows.push(pictures(
        format!("background_divide_into, element {}", config.structuring_element),
        workspace_len,
        |pair, workspace| {
            let Pair { src, dst, g } = pair;
            ours::background_divide_into(src, *g, dst, *g, &config, workspace).map(|_| ())
        },
        |src, dst, workspace| theirs::background_divide_into(src, dst, &their_config, workspace),
    ));
}
