//! Compares `tile_grid_build` with the Rust's `TileThresholdGrid::build`.

use crate::case::{listed, Buffer, Case, Expected, Left, Outcome, Outs, Places};
use crate::corner::{self, Corner, LARGEST_OFFSET};
use crate::document;
use crate::guard::Guarded;
use crate::mistake::{self, Mistake};
use crate::open;
use crate::rng::{Rng, Word};
use crate::rust;
use imgproc::grid::{self as ours, flat, TileThresholdConfig, TileThresholdMethod};
use imgproc::{Geometry, Refusal};
use qr_lab_imgproc::threshold as theirs;
use std::borrow::Cow;

#[derive(Clone)]
pub struct Build {
    pub src: Vec<u8>,
    pub g: Geometry,
    pub config: TileThresholdConfig,
    /// The method as C passes it: 0 Midrange, 1 Sauvola, any other refused.
    pub method: u32,
    pub k: f64,
    pub dynamic_range: f64,
    pub room: usize,
    pub thresholds: usize,
    pub skips: usize,
    pub open_tiles: usize,
    seed: u64,
}

/// Names the two numbers that a build gives.
fn named(tiles_x: usize, tiles_y: usize) -> Outs {
    vec![("tiles_x", tiles_x as u64), ("tiles_y", tiles_y as u64)]
}

impl Build {
    fn tiles(&self) -> usize {
        ours::tiles(self.g.width, self.g.height, self.config.tile_width, self.config.tile_height)
    }

    /// Makes a case with buffers of exact length.
    pub fn exact(src: Vec<u8>, g: Geometry, config: TileThresholdConfig, seed: u64) -> Self {
        let (method, k, dynamic_range) = match config.method {
            TileThresholdMethod::Midrange => (0, f64::NAN, f64::NAN),
            TileThresholdMethod::Sauvola { k, dynamic_range } => (1, k, dynamic_range),
        };
        let tiles = ours::tiles(g.width, g.height, config.tile_width, config.tile_height);
        let open_tiles = ours::tile_rows(g.height, config.tile_height);
        let (room, thresholds, skips) = (5 * tiles, tiles, tiles);
        Self { src, g, config, method, k, dynamic_range, room, thresholds, skips, open_tiles, seed }
    }

    /// Returns the expected number, or else the Rust's grid and the expected thresholds.
    fn decided(&self) -> Result<(theirs::TileThresholdGrid, Vec<u8>), u32> {
        let view = rust::view(&self.src, self.g)?;
        let method = match self.method {
            0 => theirs::TileThresholdMethod::Midrange,
            1 => theirs::TileThresholdMethod::Sauvola { k: self.k, dynamic_range: self.dynamic_range },
            // The Rust's enum has no other method; the C interface refuses one as a bad setting.
            _ => return Err(7),
        };
        let offset = self.config.threshold_offset;
        let config = theirs::TileThresholdConfig {
            tile_width: self.config.tile_width,
            tile_height: self.config.tile_height,
            neighborhood_radius: self.config.neighborhood_radius,
            threshold_offset: if offset > LARGEST_OFFSET { 0 } else { offset },
            contrast_floor: self.config.contrast_floor,
            method,
        };
        let grid = theirs::TileThresholdGrid::build(view, config).map_err(rust::imgproc)?;
        let tiles = grid.tiles_x() * grid.tiles_y();
        if self.room < 5 * tiles {
            return Err(document::WORKSPACE_TOO_SMALL);
        }
        if self.thresholds < tiles || self.skips < tiles || self.open_tiles < grid.tiles_y() {
            return Err(document::GRID_BUFFER_TOO_SMALL);
        }
        let mut thresholds = grid.thresholds().to_vec();
        if offset > LARGEST_OFFSET {
            // By document 01, base and offset are added without loss and then clipped.
            for base in &mut thresholds {
                *base = (i32::from(*base) + i32::from(offset)).clamp(0, 255) as u8;
            }
        }
        Ok((grid, thresholds))
    }

    fn noise(&self) -> [u64; 6] {
        let mut rng = Rng::new(self.seed);
        [(); 6].map(|()| rng.next())
    }
}

impl Case for Build {
    fn name(&self) -> &'static str {
        "tile_grid_build"
    }

    fn ours(&self) -> Outcome {
        let [a, b, c, d, e, f] = self.noise();
        let src = Guarded::new(&self.src);
        let mut thresholds = Guarded::new(&u8::noise(self.thresholds, a));
        let mut skips = Guarded::new(&u8::noise(self.skips, b));
        let mut workspace = Guarded::new(&u64::noise(self.room, c));
        let mut open_tiles = Guarded::new(&u16::noise(self.open_tiles, f));
        let (mut tiles_x, mut tiles_y) = (d as usize, e as usize);
        let number = flat::tile_grid_build(
            &src,
            self.g,
            &self.config,
            self.method,
            self.k,
            self.dynamic_range,
            &mut workspace,
            &mut thresholds,
            &mut skips,
            &mut open_tiles,
            &mut tiles_x,
            &mut tiles_y,
        );
        Outcome {
            number,
            outs: named(tiles_x, tiles_y),
            lent: vec![
                Buffer::Bytes(src),
                Buffer::Bytes(thresholds),
                Buffer::Bytes(skips),
                Buffer::U64s(workspace),
                Buffer::U16s(open_tiles),
            ],
        }
    }

    fn expected(&self) -> Result<Expected<'_>, String> {
        let [a, b, c, d, e, f] = self.noise();
        let src = Left::Bytes(Cow::Borrowed(self.src.as_slice()));
        Ok(match self.decided() {
            Err(number) => {
                let outs = named(d as usize, e as usize);
                let lent = [a, b, c, f].map(Left::Noise);
                Expected { number, outs, lent: [src].into_iter().chain(lent).collect() }
            }
            Ok((grid, stored)) => {
                let (mut thresholds, mut skips) = (u8::noise(self.thresholds, a), u8::noise(self.skips, b));
                thresholds[..stored.len()].copy_from_slice(&stored);
                for (byte, &skip) in skips.iter_mut().zip(grid.skip_mask()) {
                    *byte = u8::from(skip);
                }
                let open_tiles = open::stored(&open::of_rows(&grid), u16::noise(self.open_tiles, f));
                let (thresholds, skips) = (Left::Bytes(Cow::Owned(thresholds)), Left::Bytes(Cow::Owned(skips)));
                Expected {
                    number: 0,
                    outs: named(grid.tiles_x(), grid.tiles_y()),
                    lent: vec![src, thresholds, skips, Left::Open, Left::U16s(Cow::Owned(open_tiles))],
                }
            }
        })
    }

    fn safe(&self, expected: &Expected<'_>) -> Result<(), String> {
        let method = match self.method {
            0 => TileThresholdMethod::Midrange,
            1 => TileThresholdMethod::Sauvola { k: self.k, dynamic_range: self.dynamic_range },
            _ => return Ok(()),
        };
        let config = TileThresholdConfig { method, ..self.config };
        let [a, b, _, _, _, f] = self.noise();
        let (mut thresholds, mut skips) = (u8::noise(self.thresholds, a), u8::noise(self.skips, b));
        let (mut workspace, mut open_tiles) = (vec![0; self.room], u16::noise(self.open_tiles, f));
        let answer = ours::tile_grid_build(
            &self.src,
            self.g,
            &config,
            &mut workspace,
            &mut thresholds,
            &mut skips,
            &mut open_tiles,
        );
        let right = match Refusal::from_number(expected.number) {
            Some(refusal) => answer == Err(refusal),
            None => answer.is_ok_and(|grid| named(grid.tiles_x, grid.tiles_y) == expected.outs),
        };
        let lent = &expected.lent;
        let filled = lent[1].are_bytes(&thresholds) && lent[2].are_bytes(&skips) && lent[4].are_u16s(&open_tiles);
        if right && filled {
            Ok(())
        } else {
            Err(format!("the safe call answers {answer:?}, or writes otherwise"))
        }
    }

    fn places(&self) -> Places {
        let tiles = self.tiles();
        if document::layout(self.src.len(), self.g) != 0 || tiles == 0 {
            return Places::default();
        }
        Places {
            written: Some((2, tiles - 1)),
            beside: (self.thresholds > tiles).then_some((1, tiles)),
            source: Some((0, self.src.len() / 2)),
        }
    }

    fn mistaken(&self, mistake: Mistake, outcome: &mut Outcome) -> bool {
        let Ok((grid, _)) = self.decided() else {
            return false;
        };
        mistake::count(mistake, grid.skip_mask(), grid.tiles_x(), &mut outcome.lent[4])
    }

    fn corners(&self) -> Vec<Corner> {
        let Geometry { width, height, .. } = self.g;
        [corner::picture(width, height), corner::grid(&self.config, width, height)].concat()
    }

    fn smaller(&self) -> Vec<Self> {
        let Geometry { width, height, .. } = self.g;
        let mut list = Vec::new();
        if document::layout(self.src.len(), self.g) == 0 && self.method <= 1 {
            let method = match self.method {
                0 => TileThresholdMethod::Midrange,
                _ => TileThresholdMethod::Sauvola { k: self.k, dynamic_range: self.dynamic_range },
            };
            let config = TileThresholdConfig { method, ..self.config };
            for (x, y, w, h) in [
                (0, 0, width.div_ceil(2), height),
                (0, 0, width, height.div_ceil(2)),
                (0, 0, width - 1, height),
                (0, 0, width, height - 1),
                (1, 0, width - 1, height),
                (0, 1, width, height - 1),
            ] {
                if w == 0 || h == 0 || (w, h) == (width, height) {
                    continue;
                }
                let rows = (y..y + h).flat_map(|row| self.src[row * self.g.stride + x..][..w].iter().copied());
                list.push(Self::exact(rows.collect(), Geometry::packed(w, h), config, self.seed));
            }
        }
        for (tile_width, tile_height, neighborhood_radius) in [
            (self.config.tile_width / 2, self.config.tile_height, self.config.neighborhood_radius),
            (self.config.tile_width, self.config.tile_height / 2, self.config.neighborhood_radius),
            (self.config.tile_width, self.config.tile_height, self.config.neighborhood_radius / 2),
        ] {
            let config = TileThresholdConfig { tile_width, tile_height, neighborhood_radius, ..self.config };
            let changed = config.tile_width != self.config.tile_width
                || config.tile_height != self.config.tile_height
                || config.neighborhood_radius != self.config.neighborhood_radius;
            if changed {
                list.push(Self { config, ..self.clone() });
            }
        }
        list
    }

    fn tell(&self) -> String {
        format!(
            "{:?}, method {}, k {:?}, range {:?}\nsource {:?}, {}\n\
             workspace length {}, thresholds {}, skips {}, open tiles {}, seed {}",
            self.config, self.method, self.k, self.dynamic_range, self.g, listed(&self.src),
            self.room, self.thresholds, self.skips, self.open_tiles, self.seed
        )
    }
}
