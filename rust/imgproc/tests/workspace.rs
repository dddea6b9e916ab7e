//! Tests the workspace that owns its slices: it refuses before it allocates, and reads as lent workspaces do.

use imgproc::grid::{row_all_skip, tile_rows, Grid, TileThresholdConfig};
use imgproc::reading::{bytes_len, reading, u64s_len, ReadingConfig, ReadingWorkspace};
use imgproc::{Geometry, LumaError, Refusal, SettingError, MAX_SIDE};

fn made(width: usize, height: usize, stride: usize) -> Result<(), Refusal> {
    ReadingWorkspace::new(Geometry { width, height, stride }, &ReadingConfig::default()).map(|_| ())
}

#[test]
fn a_bad_geometry_is_refused_before_anything_is_allocated() {
    let refused = |error| Err(Refusal::Image(error));
    assert_eq!(made(0, 5, 5), refused(LumaError::EmptyDimensions));
    assert_eq!(made(5, 0, 5), refused(LumaError::EmptyDimensions));
    assert_eq!(made(5, 5, 4), refused(LumaError::StrideTooSmall));
    assert_eq!(made(5, usize::MAX, 5), refused(LumaError::BufferTooSmall));
    assert_eq!(made(usize::MAX, usize::MAX, usize::MAX), refused(LumaError::BufferTooSmall));
    assert_eq!(made(MAX_SIDE + 1, 5, MAX_SIDE + 1), refused(LumaError::SideTooLarge));
    assert_eq!(made(1, usize::MAX, 1), refused(LumaError::SideTooLarge));
    assert_eq!(made(5, 1, usize::MAX), Ok(()));
}

#[test]
fn bad_settings_are_refused_after_the_geometry() {
    let config = ReadingConfig { opening_kernel: 4, ..ReadingConfig::default() };
    let made = |width| ReadingWorkspace::new(Geometry::packed(width, 3), &config).map(|_| ());
    assert_eq!(made(3), Err(SettingError::OpeningKernel.refusal()));
    assert_eq!(made(0), Err(Refusal::Image(LumaError::EmptyDimensions)));
}

#[test]
fn it_reads_as_lent_workspaces_do() {
    let (source, target) =
        (Geometry { width: 40, height: 33, stride: 43 }, Geometry { width: 40, height: 33, stride: 41 });
    let picture: Vec<u8> = (0..43 * 33).map(|i| if i % 43 < 9 { 50 } else { (180 + i % 7) as u8 }).collect();
    let config = ReadingConfig::default();
    let (mut lent, mut owned) = (vec![1; 41 * 33], vec![1; 41 * 33]);
    let mut bytes = vec![0; bytes_len(40, 33, &config.grid)];
    let mut u64s = vec![0; u64s_len(40, 33, &config.grid)];
    let mut open_tiles = vec![7; tile_rows(33, config.grid.tile_height)];
    let counts = reading(&picture, source, &mut lent, target, &config, &mut bytes, &mut u64s, &mut open_tiles).unwrap();
    let mut workspace = ReadingWorkspace::new(Geometry::packed(40, 33), &config).unwrap();
    assert_eq!((workspace.grid(), workspace.open_tiles()), (None, &[][..]));
    // Reads twice: what the first reading leaves in the workspaces does not matter.
    for _ in 0..2 {
        assert_eq!(workspace.reading(&picture, source, &mut owned, target), Ok(counts));
        assert_eq!(lent, owned);
        assert_eq!(workspace.grid(), Some(Grid::of(40, 33, &config.grid)));
        assert_eq!(workspace.open_tiles(), open_tiles);
    }
    assert!(counts.dark > 0 && counts.light > 0);
    assert_eq!(workspace.config(), &config);
    assert!(format!("{workspace:?}").len() < 1000);
}

#[test]
fn a_larger_picture_is_refused_and_a_higher_one_read_if_it_fits() {
    let config = ReadingConfig::default();
    let mut workspace = ReadingWorkspace::new(Geometry::packed(8, 8), &config).unwrap();
    let larger = Geometry::packed(9, 8);
    let answer = workspace.reading(&[0; 72], larger, &mut [0; 72], larger);
    assert_eq!(answer, Err(Refusal::WorkspaceTooSmall));
    assert_eq!((workspace.grid(), workspace.open_tiles()), (None, &[][..]));
    // A higher one needs no more bytes if it is narrower. It has more tile rows.
    let higher = Geometry::packed(3, 17);
    let counts = workspace.reading(&[0; 51], higher, &mut [0; 51], higher).unwrap();
    assert_eq!(counts.skipped, 51);
    assert_eq!((workspace.grid(), workspace.open_tiles()), (Some(Grid::of(3, 17, &config.grid)), &[0, 0][..]));
    // The highest, in the lowest tiles.
    let config = ReadingConfig { grid: TileThresholdConfig { tile_height: 1, ..config.grid }, ..config };
    let mut workspace = ReadingWorkspace::new(Geometry::packed(130, 130), &config).unwrap();
    let highest = Geometry::packed(1, MAX_SIDE);
    let answer = workspace.reading(&[0; MAX_SIDE], highest, &mut [0; MAX_SIDE], highest);
    assert_eq!(answer.map(|counts| counts.skipped), Ok(4096));
    assert_eq!(workspace.open_tiles(), [0; MAX_SIDE]);
}

#[test]
fn the_open_tiles_are_those_of_the_picture_last_read() {
    let config = ReadingConfig::default();
    let mut workspace = ReadingWorkspace::new(Geometry::packed(48, 64), &config).unwrap();
    let mut marked = vec![0; 48 * 64];
    // Pictures of other sizes, the first with contrast in its first tile rows only.
    let large = Geometry::packed(48, 64);
    let mut picture = vec![200; large.area()];
    picture[..4 * 48].iter_mut().step_by(3).for_each(|pixel| *pixel = 40);
    let small = Geometry::packed(17, 20);
    for (picture, geometry, rows) in [(&picture[..], large, 4), (&[9; 340], small, 2), (&picture[..], large, 4)] {
        workspace.reading(picture, geometry, &mut marked, geometry).unwrap();
        let (sizes, open_tiles) = (workspace.grid().unwrap(), workspace.open_tiles().to_vec());
        assert_eq!((sizes.width, sizes.height, sizes.tiles_y), (geometry.width, geometry.height, rows));
        assert_eq!(open_tiles.len(), rows);
        for y in 0..geometry.height {
            assert_eq!(row_all_skip(sizes, &open_tiles, y), Ok(open_tiles[y / config.grid.tile_height] == 0));
        }
        // A refused reading changes neither.
        let refused = workspace.reading(&[], geometry, &mut marked, geometry);
        assert_eq!(refused, Err(Refusal::Image(LumaError::BufferTooSmall)));
        assert_eq!((workspace.grid(), workspace.open_tiles()), (Some(sizes), &open_tiles[..]));
    }
}

#[test]
fn a_region_is_read_by_offset_and_stride() {
    let whole = Geometry::packed(60, 50);
    let picture: Vec<u8> = (0..whole.area()).map(|i| if i % 60 / 8 == 4 { 70 } else { (150 + i % 11) as u8 }).collect();
    let (x, y, region) = (20, 10, Geometry { width: 30, height: 24, stride: whole.stride });
    let cut: Vec<u8> = (0..24).flat_map(|row| picture[(y + row) * 60 + x..][..30].to_vec()).collect();
    let packed = Geometry::packed(30, 24);
    let mut workspace = ReadingWorkspace::new(region, &ReadingConfig::default()).unwrap();
    let (mut in_place, mut copied) = (vec![0; packed.area()], vec![0; packed.area()]);
    let counts = workspace.reading(&picture[y * whole.stride + x..], region, &mut in_place, packed).unwrap();
    assert_eq!(workspace.reading(&cut, packed, &mut copied, packed), Ok(counts));
    assert_eq!(in_place, copied);
    assert!(counts.dark > 0);
}
