//! Times Sauvola's threshold with the default settings, radius 8.

use crate::through::pictures;
use crate::time::{Pair, Row};
use imgproc::sauvola::{self as ours, workspace_len};
use qr_lab_imgproc::threshold as theirs;

pub fn measure(rows: &mut Vec<Row>) {
    let (config, their_config) = (ours::SauvolaConfig::default(), theirs::SauvolaConfig::default());
    rows.push(pictures(
        format!("sauvola_into, radius {}", config.radius),
        workspace_len,
        |pair, workspace| {
            let Pair { src, dst, g } = pair;
            ours::sauvola_into(src, *g, dst, *g, &config, workspace)
        },
        |src, dst, workspace| theirs::sauvola_into(src, dst, &their_config, workspace),
    ));
}
