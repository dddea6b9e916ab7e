//! Takes times and medians, and holds the buffers that both sides share.

use imgproc::Geometry;
use std::time::{Duration, Instant};

pub const SIZES: [(usize, usize); 3] = [(640, 480), (1920, 1080), (4096, 4096)];

/// Medians in seconds.
pub struct Cell {
    pub ours: f64,
    pub rust: f64,
}

pub struct Row {
    pub name: String,
    pub cells: Vec<Cell>,
}

/// A source, and a destination that both sides write to.
pub struct Pair {
    pub src: Vec<u8>,
    pub dst: Vec<u8>,
    pub g: Geometry,
}

impl Pair {
    pub fn new(width: usize, height: usize) -> Self {
        Self { src: picture(width, height), dst: vec![0; width * height], g: Geometry::packed(width, height) }
    }
}

/// Makes a picture whose light falls off to one side, with noise and dark marks, so that no side has an easy case.
fn picture(width: usize, height: usize) -> Vec<u8> {
    let mut state = 1u64;
    let mut pixels = Vec::with_capacity(width * height);
    for y in 0..height {
        for x in 0..width {
            state = state.wrapping_mul(6_364_136_223_846_793_005).wrapping_add(1_442_695_040_888_963_407);
            let light = 90 + 120 * x / width + (state >> 60) as usize;
            let mark = (x / 7 + y / 11) % 5 == 0;
            pixels.push(if mark { light / 3 } else { light } as u8);
        }
    }
    pixels
}

/// Makes one row of the table: for each size both sides run in turns on one state.
pub fn row<S>(
    name: impl Into<String>, state: impl Fn(usize, usize) -> S, ours: impl Fn(&mut S), rust: impl Fn(&mut S),
    left: impl Fn(&S) -> &[u8],
) -> Row {
    let name = name.into();
    let cells = SIZES
        .iter()
        .map(|&(width, height)| {
            let mut state = state(width, height);
            // The first call of each side warms its buffers. Both have to leave the same bytes.
            ours(&mut state);
            let ours_left = left(&state).to_vec();
            rust(&mut state);
            assert!(left(&state) == ours_left, "{name}: the two sides differ");
            medians(&mut state, &ours, &rust)
        })
        .collect();
    Row { name, cells }
}

fn medians<S>(state: &mut S, ours: impl Fn(&mut S), rust: impl Fn(&mut S)) -> Cell {
    const ROUNDS: std::ops::RangeInclusive<usize> = 7..=101;
    const ENOUGH: Duration = Duration::from_millis(1500);
    let (mut of_ours, mut of_rust) = (Vec::new(), Vec::new());
    let start = Instant::now();
    while of_ours.len() < *ROUNDS.end() && (of_ours.len() < *ROUNDS.start() || start.elapsed() < ENOUGH) {
        of_ours.push(seconds(|| ours(state)));
        of_rust.push(seconds(|| rust(state)));
    }
    Cell { ours: median(of_ours), rust: median(of_rust) }
}

fn seconds(call: impl FnOnce()) -> f64 {
    let start = Instant::now();
    call();
    start.elapsed().as_secs_f64()
}

fn median(mut times: Vec<f64>) -> f64 {
    times.sort_by(f64::total_cmp);
    times[times.len() / 2]
}
