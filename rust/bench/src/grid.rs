//! Times the grid's build with the default tiles, by both methods, and a query for each pixel row. The Rust allocates
//! its grid at each call.

use crate::time::{row, Pair, Row};
use imgproc::grid::{self as ours, TileThresholdConfig, TileThresholdMethod};
use qr_lab_image::Gray8View;
use qr_lab_imgproc::threshold as theirs;

struct Lent {
    pair: Pair,
    workspace: Vec<u64>,
    thresholds: Vec<u8>,
    skips: Vec<u8>,
    open_tiles: Vec<u16>,
}

fn lent(width: usize, height: usize) -> Lent {
    let tiles = ours::tiles(width, height, 16, 16);
    Lent {
        pair: Pair::new(width, height),
        workspace: vec![0; 5 * tiles],
        thresholds: vec![0; tiles],
        skips: vec![0; tiles],
        open_tiles: vec![0; ours::tile_rows(height, 16)],
    }
}

/// A built grid of each side, and the answers for its pixel rows.
struct Asked {
    sizes: ours::Grid,
    open_tiles: Vec<u16>,
    theirs: theirs::TileThresholdGrid,
    left: Vec<u8>,
}

fn asked(width: usize, height: usize) -> Asked {
    let Lent { pair, mut workspace, mut thresholds, mut skips, mut open_tiles } = lent(width, height);
    let Pair { src, g, .. } = &pair;
    let config = TileThresholdConfig::default();
    let sizes =
        ours::tile_grid_build(src, *g, &config, &mut workspace, &mut thresholds, &mut skips, &mut open_tiles)
            .expect("accepted");
    let src = Gray8View::new(src, width, height, width).expect("a good layout");
    let theirs = theirs::TileThresholdGrid::build(src, theirs::TileThresholdConfig::default()).expect("accepted");
    Asked { sizes, open_tiles, theirs, left: vec![0; height] }
}

pub fn measure(rows: &mut Vec<Row>) {
    builds(rows);
    rows.push(row(
        "row_all_skip, one call a row",
        asked,
        |a| {
            for (y, left) in a.left.iter_mut().enumerate() {
                *left = u8::from(ours::row_all_skip(a.sizes, &a.open_tiles, y).expect("accepted"));
            }
        },
        |a| {
            for (y, left) in a.left.iter_mut().enumerate() {
                *left = u8::from(a.theirs.row_all_skip(y));
            }
        },
        |a| &a.left,
    ));
}

fn builds(rows: &mut Vec<Row>) {
    let sauvola = TileThresholdMethod::Sauvola { k: 0.2, dynamic_range: 128.0 };
    for (name, method) in [("Midrange", TileThresholdMethod::Midrange), ("Sauvola", sauvola)] {
        let config = TileThresholdConfig { method, ..TileThresholdConfig::default() };
        let their_config = theirs::TileThresholdConfig {
            method: match method {
                TileThresholdMethod::Midrange => theirs::TileThresholdMethod::Midrange,
                TileThresholdMethod::Sauvola { k, dynamic_range } => {
                    theirs::TileThresholdMethod::Sauvola { k, dynamic_range }
                }
            },
            ..theirs::TileThresholdConfig::default()
        };
        rows.push(row(
            format!("tile_grid_build, {name}"),
            lent,
            |l| {
                let (thresholds, skips, open_tiles) = (&mut l.thresholds, &mut l.skips, &mut l.open_tiles);
                ours::tile_grid_build(&l.pair.src, l.pair.g, &config, &mut l.workspace, thresholds, skips, open_tiles)
                    .expect("accepted");
            },
            |l| {
                let g = l.pair.g;
                let src = Gray8View::new(&l.pair.src, g.width, g.height, g.stride).expect("a good layout");
                let grid = theirs::TileThresholdGrid::build(src, their_config).expect("accepted");
                l.thresholds.copy_from_slice(grid.thresholds());
            },
            |l| &l.thresholds,
        ));
    }
}
