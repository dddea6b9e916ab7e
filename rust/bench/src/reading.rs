//! Times the reading with the default settings against a chain of the Rust's calls, which keeps its own buffers.

use crate::time::{row, Pair, Row};
use imgproc::grid::tile_rows;
use imgproc::reading::{bytes_len, reading, u64s_len, ReadingConfig};
use imgproc::Geometry;
use qr_lab_image::{Gray8View, Gray8ViewMut};
use qr_lab_imgproc::illumination::{background_divide_into, BackgroundDivideConfig, IlluminationWorkspace};
use qr_lab_imgproc::morphology::{grayscale_open_into, MorphologyWorkspace};
use qr_lab_imgproc::threshold::{
    sauvola_into, SauvolaConfig, ThresholdWorkspace, TileThresholdConfig, TileThresholdGrid,
};

struct Lent {
    pair: Pair,
    bytes: Vec<u8>,
    u64s: Vec<u64>,
    open_tiles: Vec<u16>,
    theirs: Theirs,
}

#[derive(Default)]
struct Theirs {
    flat: Vec<u8>,
    opened: Vec<u8>,
    division: IlluminationWorkspace,
    opening: MorphologyWorkspace,
    threshold: ThresholdWorkspace,
}

fn lent(width: usize, height: usize) -> Lent {
    let grid = ReadingConfig::default().grid;
    let plane = || vec![0; width * height];
    Lent {
        pair: Pair::new(width, height),
        bytes: vec![0; bytes_len(width, height, &grid)],
        u64s: vec![0; u64s_len(width, height, &grid)],
        open_tiles: vec![0; tile_rows(height, grid.tile_height)],
        theirs: Theirs { flat: plane(), opened: plane(), ..Theirs::default() },
    }
}

fn view(data: &[u8], g: Geometry) -> Gray8View<'_> {
    Gray8View::new(data, g.width, g.height, g.stride).expect("a good layout")
}

fn view_mut(data: &mut [u8], g: Geometry) -> Gray8ViewMut<'_> {
    Gray8ViewMut::new(data, g.width, g.height, g.stride).expect("a good layout")
}

/// Divides, opens and thresholds the picture, then makes the pixels of skipped tiles light.
fn chain(pair: &mut Pair, theirs: &mut Theirs) {
    let Pair { src, dst, g } = pair;
    let packed = Geometry::packed(g.width, g.height);
    let Theirs { flat, opened, division, opening, threshold } = theirs;
    let config = BackgroundDivideConfig::default();
    background_divide_into(view(src, *g), view_mut(flat, packed), &config, division).expect("accepted");
    grayscale_open_into(view(flat, packed), view_mut(opened, packed), 3, opening).expect("accepted");
    let opened = view(opened, packed);
    let grid = TileThresholdGrid::build(opened, TileThresholdConfig::default()).expect("accepted");
    let config = SauvolaConfig::default();
    sauvola_into(opened, view_mut(dst, *g), &config, threshold).expect("accepted");
    for y in 0..g.height {
        for (x, pixel) in dst[y * g.stride..][..g.width].iter_mut().enumerate() {
            if grid.is_skip(x, y) {
                *pixel = config.light_value;
            }
        }
    }
}

pub fn measure(rows: &mut Vec<Row>) {
    let config = ReadingConfig::default();
    rows.push(row(
        "reading, default settings".to_string(),
        lent,
        |l| {
            let Pair { src, dst, g } = &mut l.pair;
            reading(src, *g, dst, *g, &config, &mut l.bytes, &mut l.u64s, &mut l.open_tiles).expect("accepted");
        },
        |l| chain(&mut l.pair, &mut l.theirs),
        |l| &l.pair.dst,
    ));
}
