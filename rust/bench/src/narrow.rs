//! Times Sauvola's threshold with tables of u32s, by the default settings: against the Rust's, and against our call with
//! tables of u64s.

use crate::through::pictures;
use crate::time::{row, Pair, Row};
use imgproc::sauvola::{self as ours, workspace_len, SauvolaConfig};
use imgproc::Refusal;
use qr_lab_imgproc::threshold as theirs;

/// A pair of pictures, and a workspace of each call of ours.
struct Both {
    pair: Pair,
    narrow: Vec<u32>,
    wide: Vec<u64>,
}

fn both(width: usize, height: usize) -> Both {
    let entries = workspace_len(width, height);
    Both { pair: Pair::new(width, height), narrow: vec![0; entries], wide: vec![0; entries] }
}

fn narrow(pair: &mut Pair, config: &SauvolaConfig, workspace: &mut [u32]) -> Result<(), Refusal> {
    let Pair { src, dst, g } = pair;
    ours::sauvola_narrow_into(src, *g, dst, *g, config, workspace)
}

fn wide(pair: &mut Pair, config: &SauvolaConfig, workspace: &mut [u64]) -> Result<(), Refusal> {
    let Pair { src, dst, g } = pair;
    ours::sauvola_into(src, *g, dst, *g, config, workspace)
}

pub fn measure(rows: &mut Vec<Row>) {
    let (config, their_config) = (SauvolaConfig::default(), theirs::SauvolaConfig::default());
    rows.push(pictures(
        format!("sauvola_narrow_into, radius {}", config.radius),
        workspace_len,
        |pair, workspace| narrow(pair, &config, workspace),
        |src, dst, workspace| theirs::sauvola_into(src, dst, &their_config, workspace),
    ));
    rows.push(row(
        format!("sauvola_narrow_into, radius {}, against sauvola_into, by half the workspace", config.radius),
        both,
        |b| narrow(&mut b.pair, &config, &mut b.narrow).expect("accepted"),
        |b| wide(&mut b.pair, &config, &mut b.wide).expect("accepted"),
        |b| &b.pair.dst,
    ));
}
