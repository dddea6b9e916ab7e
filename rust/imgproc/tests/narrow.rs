//! Tests Sauvola's narrow call: the limit of a window, the refusals in order, and that it writes what the wide call
//! writes.

use imgproc::sauvola::{sauvola_into, sauvola_narrow_into, workspace_len, SauvolaConfig, MAX_WINDOW};
use imgproc::{Geometry, LumaError, Refusal};

/// Makes the narrow call with a workspace that is this much too short. Checks that a refused call changes nothing, and
/// that an accepted one writes what the wide call writes, and no number behind its workspace.
fn narrow(picture: &[u8], source: Geometry, config: &SauvolaConfig, missing: usize) -> Result<(), Refusal> {
    let target = Geometry { stride: source.width + 3, ..source };
    let room = workspace_len(source.width, source.height);
    let (mut narrowly, mut widely) = (vec![7; target.stride * target.height], vec![7; target.stride * target.height]);
    let mut narrow = vec![8_u32; room + 1];
    let answer = sauvola_narrow_into(picture, source, &mut narrowly, target, config, &mut narrow[..room - missing]);
    if answer.is_ok() {
        sauvola_into(picture, source, &mut widely, target, config, &mut vec![0; room]).unwrap();
        assert_eq!(narrow[room], 8);
    } else {
        assert!(narrow.iter().all(|&number| number == 8));
    }
    assert!(narrowly == widely, "{source:?} {config:?}");
    answer
}

/// Asks with settings of this radius, on a picture of noise and on a bright one: in the larger pictures its squares add
/// up to more than 32 bits hold.
fn answer(width: usize, height: usize, radius: usize) -> Result<(), Refusal> {
    let geometry = Geometry { width, height, stride: width + 1 };
    let config = SauvolaConfig { radius, ..Default::default() };
    let mut state = 1_u64;
    let mut below = |n: usize| {
        state = state.wrapping_mul(6364136223846793005).wrapping_add(1442695040888963407);
        (state >> 33) as usize % n
    };
    let noise: Vec<u8> = (0..geometry.stride * height).map(|_| below(256) as u8).collect();
    let bright: Vec<u8> = (0..geometry.stride * height).map(|_| (255 - below(9)) as u8).collect();
    let answer = narrow(&noise, geometry, &config, 0);
    assert_eq!(narrow(&bright, geometry, &config, 0), answer);
    // A short workspace comes after a large window.
    assert_eq!(narrow(&noise, geometry, &config, 1), answer.and(Err(Refusal::WorkspaceTooSmall)));
    answer
}

type Spoil = fn(&mut SauvolaConfig);

const LARGE: Result<(), Refusal> = Err(Refusal::WindowTooLarge);

#[test]
fn a_window_has_at_most_66051_pixels() {
    assert_eq!(MAX_WINDOW, 66_051);
    assert_eq!(369 * 179, MAX_WINDOW);
    for (width, height) in [(369, 179), (500, 179)] {
        assert_eq!(answer(width, height, 184), Ok(()));
        assert_eq!(answer(height, width, 184), Ok(()));
    }
    assert_eq!(196 * 337, MAX_WINDOW + 1);
    for (width, height) in [(196, 337), (196, 500)] {
        assert_eq!(answer(width, height, 168), LARGE);
        assert_eq!(answer(height, width, 168), LARGE);
        assert_eq!(answer(width, height, 167), Ok(()));
    }
    assert_eq!((answer(300, 280, 128), answer(300, 280, 129)), (Ok(()), LARGE));
}

#[test]
fn any_radius_is_counted_truly() {
    for radius in [4096, usize::MAX / 2, usize::MAX / 2 + 1, usize::MAX / 2 + 2, usize::MAX] {
        assert_eq!(answer(1, 1, radius), Ok(()));
        assert_eq!(answer(257, 257, radius), Ok(()));
        assert_eq!(answer(257, 258, radius), LARGE);
        assert_eq!(answer(16, 4096, radius), Ok(()));
        assert_eq!(answer(4096, 17, radius), LARGE);
    }
}

#[test]
fn each_refusal_comes_in_order() {
    let good = Geometry { width: 300, height: 280, stride: 301 };
    let layouts = [
        (Geometry { width: 0, ..good }, LumaError::EmptyDimensions),
        (Geometry { stride: 299, ..good }, LumaError::StrideTooSmall),
        (Geometry { stride: 400, ..good }, LumaError::BufferTooSmall),
        (Geometry { width: 4097, height: 1, stride: 4097 }, LumaError::SideTooLarge),
    ];
    let settings: [(Spoil, Option<Refusal>); 5] = [
        (|config| config.radius = 0, Some(Refusal::InvalidConfiguration)),
        (|config| config.k_milli = 1001, Some(Refusal::InvalidConfiguration)),
        (|config| config.dynamic_range = 0, Some(Refusal::InvalidConfiguration)),
        (|config| config.radius = 129, Some(Refusal::WindowTooLarge)),
        (|_| (), None),
    ];
    let picture = vec![100; 301 * 280];
    let mut tried = 0;
    let mut refused = |src: Geometry, dst: Geometry, config: &SauvolaConfig, room: usize, reason: Option<Refusal>| {
        let (mut marked, mut workspace) = (vec![7; 301 * 280], vec![8; room]);
        let answer = sauvola_narrow_into(&picture, src, &mut marked, dst, config, &mut workspace);
        assert_eq!(answer.err(), reason);
        let kept = marked.iter().all(|&byte| byte == 7) && workspace.iter().all(|&number| number == 8);
        assert_eq!(kept, answer.is_err());
        tried += 1;
    };
    for (spoil, fault) in settings {
        let mut config = SauvolaConfig { radius: 128, ..Default::default() };
        spoil(&mut config);
        for (missing, short) in [(0, None), (1, Some(Refusal::WorkspaceTooSmall))] {
            let room = workspace_len(300, 280) - missing;
            for (bad, error) in layouts {
                let other = layouts[3].0;
                refused(bad, other, &config, room, Some(error.into()));
                refused(good, bad, &config, room, Some(error.into()));
            }
            refused(good, Geometry { height: 279, ..good }, &config, room, Some(Refusal::DimensionMismatch));
            refused(good, good, &config, room, fault.or(short));
        }
    }
    assert_eq!(tried, 5 * 2 * 10);
}
