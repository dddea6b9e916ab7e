//! Tests the refusals: their numbers, their words, and that a check of settings finds what a call is refused for.

use imgproc::grid::TileThresholdMethod;
use imgproc::reading::{bytes_len, reading, u64s_len, ReadingConfig};
use imgproc::{grid, illumination, sauvola, Geometry, LumaError, Refusal, SettingError};
use std::error::Error;

#[test]
fn numbers_go_both_ways() {
    assert_eq!(Refusal::from_number(0), None);
    for number in 1..20 {
        assert_eq!(Refusal::from_number(number).map(Refusal::number), Some(number));
    }
    assert_eq!(Refusal::from_number(11), Some(Refusal::Unknown(11)));
    assert_eq!(Refusal::from_number(12), Some(Refusal::WindowTooLarge));
    assert_eq!(Refusal::from_number(13), Some(Refusal::NoRecord));
    assert_eq!(Refusal::from_number(14), Some(Refusal::BadRecord));
    assert_eq!(Refusal::from_number(15), Some(Refusal::Unknown(15)));
}

#[test]
fn words_are_those_of_the_header() {
    let header = include_str!("../../../include/imgproc_settings.h");
    for number in 1..=15 {
        let shown = Refusal::from_number(number).unwrap().to_string();
        let words = shown.strip_prefix(&format!("refused {number}: ")).unwrap();
        assert!(header.contains(&format!("return \"{words}\";")), "{words}");
    }
}

#[test]
fn a_layout_shows_the_same_words_alone() {
    let luma = LumaError::StrideTooSmall;
    assert_eq!(luma.to_string(), Refusal::from(luma).to_string());
    let boxed: Box<dyn Error> = luma.into();
    assert_eq!(boxed.to_string(), "refused 2: the stride is below the width");
}

type Spoil = fn(&mut ReadingConfig);

const SPOILS: [(Spoil, SettingError); 14] = [
    (|c| c.division.structuring_element = 1, SettingError::StructuringElement),
    (|c| c.division.structuring_element = 32, SettingError::StructuringElement),
    (|c| c.division.denominator_floor = 0, SettingError::DenominatorFloor),
    (|c| c.opening_kernel = 2, SettingError::OpeningKernel),
    (|c| c.opening_kernel = usize::MAX - 1, SettingError::OpeningKernel),
    (|c| c.grid.tile_width = 0, SettingError::TileWidth),
    (|c| c.grid.tile_height = 0, SettingError::TileHeight),
    (|c| c.grid.method = method(f64::NAN, 1.0), SettingError::MethodK),
    (|c| c.grid.method = method(0.2, f64::INFINITY), SettingError::MethodDynamicRange),
    (|c| c.grid.method = method(0.2, -0.0), SettingError::MethodDynamicRange),
    (|c| c.grid.method = method(0.2, f64::NAN), SettingError::MethodDynamicRange),
    (|c| c.sauvola.radius = 0, SettingError::Radius),
    (|c| c.sauvola.k_milli = 1001, SettingError::KMilli),
    (|c| c.sauvola.dynamic_range = 0, SettingError::DynamicRange),
];

fn method(k: f64, dynamic_range: f64) -> TileThresholdMethod {
    TileThresholdMethod::Sauvola { k, dynamic_range }
}

/// Reads a small picture with these settings and long workspaces.
fn answer(config: &ReadingConfig) -> Result<(), Refusal> {
    let geometry = Geometry::packed(5, 4);
    let (mut dst, mut bytes, mut u64s, mut open_tiles) = ([0; 20], [0; 400], [0; 400], [0; 20]);
    reading(&[7; 20], geometry, &mut dst, geometry, config, &mut bytes, &mut u64s, &mut open_tiles).map(|_| ())
}

#[test]
fn each_fault_is_named_and_refused() {
    assert_eq!(ReadingConfig::default().check(), Ok(()));
    for (spoil, fault) in SPOILS {
        let mut config = ReadingConfig::default();
        spoil(&mut config);
        assert_eq!(config.check(), Err(fault));
        assert_eq!(answer(&config), Err(fault.refusal()), "{fault}");
        assert!(fault.to_string().starts_with(fault.field()), "{fault}");
    }
}

#[test]
fn of_two_faults_the_first_in_order_is_named() {
    for (i, (spoil, fault)) in SPOILS.iter().enumerate() {
        for (other, _) in &SPOILS[i + 1..] {
            let mut config = ReadingConfig::default();
            other(&mut config);
            spoil(&mut config);
            assert_eq!(config.check(), Err(*fault));
            assert_eq!(answer(&config), Err(fault.refusal()), "{fault}");
        }
    }
}

#[test]
fn limits_are_accepted() {
    let mut config = ReadingConfig::default();
    config.division.structuring_element = usize::MAX;
    config.division.denominator_floor = 1;
    config.opening_kernel = usize::MAX;
    config.grid.tile_width = usize::MAX;
    config.grid.method = method(-1e300, f64::from_bits(1));
    config.sauvola.radius = usize::MAX;
    config.sauvola.k_milli = 1000;
    config.sauvola.dynamic_range = 1;
    assert_eq!(config.check(), Ok(()));
    assert_eq!(answer(&config), Ok(()));
}

#[test]
fn a_reading_checks_the_counts_last() {
    let geometry = Geometry::packed(5, 33);
    let answer = |config: &ReadingConfig, missing: [usize; 3]| {
        let mut dst = [3; 165];
        let mut bytes = vec![4; bytes_len(5, 33, &config.grid) - missing[0]];
        let mut u64s = vec![5; u64s_len(5, 33, &config.grid) - missing[1]];
        let mut open_tiles = vec![6; 4];
        let rows = grid::tile_rows(33, config.grid.tile_height) - missing[2];
        let answer =
            reading(&[7; 165], geometry, &mut dst, geometry, config, &mut bytes, &mut u64s, &mut open_tiles[..rows]);
        let kept = dst == [3; 165]
            && bytes.iter().all(|byte| *byte == 4)
            && u64s.iter().all(|number| *number == 5)
            && open_tiles == [6; 4];
        assert_eq!(kept, answer.is_err());
        assert!(kept || open_tiles == [0, 0, 0, 6]);
        answer.map(|counts| counts.skipped)
    };
    let config = ReadingConfig::default();
    assert_eq!(answer(&config, [0, 0, 0]), Ok(165));
    for rows in 1..=3 {
        assert_eq!(answer(&config, [0, 0, rows]), Err(Refusal::GridBufferTooSmall));
        assert_eq!(answer(&config, [1, 0, rows]), Err(Refusal::WorkspaceTooSmall));
        assert_eq!(answer(&config, [0, 1, rows]), Err(Refusal::WorkspaceTooSmall));
        let mut config = config;
        config.sauvola.radius = 0;
        assert_eq!(answer(&config, [0, 0, rows]), Err(Refusal::InvalidConfiguration));
    }
}

#[test]
fn lengths_never_wrap() {
    let mut config = ReadingConfig::default();
    for tile in [1, 2, usize::MAX] {
        (config.grid.tile_width, config.grid.tile_height) = (tile, tile);
        for side in [usize::MAX / 9 + 1, usize::MAX / 2 + 1, usize::MAX] {
            for other in [1 << 16, usize::MAX] {
                assert_eq!(bytes_len(side, other, &config.grid), usize::MAX);
                assert_eq!(u64s_len(other, side, &config.grid), usize::MAX);
                assert_eq!(illumination::workspace_len(side, other), usize::MAX);
                assert_eq!(sauvola::workspace_len(side, other), usize::MAX);
            }
        }
    }
    assert_eq!(grid::tiles(usize::MAX, usize::MAX, 1, 1), usize::MAX);
    assert_eq!(grid::tile_rows(usize::MAX, 1), usize::MAX);
    assert_eq!(grid::tile_rows(usize::MAX, 2), 1 << 63);
}
