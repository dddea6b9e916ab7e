//! Makes simpler cases of a picture call, for the search for the smallest input that still differs.

use super::{Operator, Through};
use crate::document;
use crate::layouts::needed;
use crate::rng::Word;
use imgproc::Geometry;

/// The slack of a case: padding, tails, and the workspace's distance from the needed length.
#[derive(Clone, Copy, Default, PartialEq, Eq)]
struct Slack {
    src_padding: usize,
    src_tail: usize,
    dst_padding: usize,
    dst_tail: usize,
    missing: usize,
    spare: usize,
}

pub fn smaller<O: Operator>(case: &Through<O>) -> Vec<Through<O>> {
    let right = |data: &[u8], g| document::layout(data.len(), g) == 0;
    let mut list = if right(&case.src, case.s) && right(&case.dst, case.d) && size(case.s) == size(case.d) {
        reshaped(case)
    } else {
        relaid(case)
    };
    list.extend(case.op.simpler().into_iter().map(|op| Through { op, ..case.clone() }));
    list
}

fn size(g: Geometry) -> (usize, usize) {
    (g.width, g.height)
}

/// Simplifies good layouts: fewer rows and columns, less slack, darker pixels.
fn reshaped<O: Operator>(case: &Through<O>) -> Vec<Through<O>> {
    let (w, h) = size(case.s);
    let mut shapes = vec![(0, 0, w / 2, h), (0, 0, w, h / 2)];
    shapes.extend([(0, 0, w - 1, h), (0, 0, w, h - 1), (1, 0, w - 1, h), (0, 1, w, h - 1)]);
    shapes.retain(|&(_, _, width, height)| width > 0 && height > 0);
    let slack = slack(case);
    let mut list = Vec::new();
    for &(x, y, width, height) in &shapes {
        list.push(cut(case, x, y, width, height, Slack::default()));
        list.push(cut(case, x, y, width, height, slack));
    }
    let mut less = vec![Slack::default()];
    for shorten in [|_: usize| 0, |n: usize| n / 2, |n: usize| n.saturating_sub(1)] {
        less.push(Slack { src_padding: shorten(slack.src_padding), ..slack });
        less.push(Slack { src_tail: shorten(slack.src_tail), ..slack });
        less.push(Slack { dst_padding: shorten(slack.dst_padding), ..slack });
        less.push(Slack { dst_tail: shorten(slack.dst_tail), ..slack });
        less.push(Slack { missing: shorten(slack.missing), ..slack });
        less.push(Slack { spare: shorten(slack.spare), ..slack });
    }
    list.extend(less.into_iter().filter(|&less| less != slack).map(|less| cut(case, 0, 0, w, h, less)));
    if w * h <= 64 {
        for i in (0..w * h).map(|i| i / w * case.s.stride + i % w).filter(|&i| case.src[i] != 0) {
            for value in [0, case.src[i] / 2] {
                let mut next = case.clone();
                next.src[i] = value;
                list.push(next);
            }
        }
    }
    list
}

fn slack<O: Operator>(case: &Through<O>) -> Slack {
    let room = case.op.room(case.s.width, case.s.height);
    Slack {
        // A picture of one row may have any stride; a few bytes of padding show as much.
        src_padding: (case.s.stride - case.s.width).min(64),
        src_tail: case.src.len() - needed(case.s),
        dst_padding: (case.d.stride - case.d.width).min(64),
        dst_tail: case.dst.len() - needed(case.d),
        missing: room.saturating_sub(case.room),
        spare: case.room.saturating_sub(room),
    }
}

/// Returns the case over a part of its picture.
fn cut<O: Operator>(case: &Through<O>, x: usize, y: usize, width: usize, height: usize, slack: Slack) -> Through<O> {
    let s = Geometry { width, height, stride: width + slack.src_padding };
    let d = Geometry { width, height, stride: width + slack.dst_padding };
    let mut src = u8::noise(needed(s) + slack.src_tail, case.seed);
    for row in 0..height {
        let from = (y + row) * case.s.stride + x;
        src[row * s.stride..][..width].copy_from_slice(&case.src[from..from + width]);
    }
    let dst = u8::noise(needed(d) + slack.dst_tail, !case.seed);
    let room = (case.op.room(width, height) + slack.spare).saturating_sub(slack.missing);
    Through { op: case.op.clone(), src, s, dst, d, room, seed: case.seed }
}

/// Simplifies wrong layouts or differing sizes: makes one number or one length smaller.
fn relaid<O: Operator>(case: &Through<O>) -> Vec<Through<O>> {
    let mut list = Vec::new();
    for cut in [|n: usize| n / 2, |n: usize| n.saturating_sub(1)] {
        for destination in [false, true] {
            for field in 0..4 {
                let mut next = case.clone();
                let (data, g) = if destination { (&mut next.dst, &mut next.d) } else { (&mut next.src, &mut next.s) };
                let before = (data.len(), *g);
                match field {
                    0 => data.truncate(cut(data.len())),
                    1 => g.width = cut(g.width),
                    2 => g.height = cut(g.height),
                    _ => g.stride = cut(g.stride),
                }
                if before != (data.len(), *g) {
                    list.push(next);
                }
            }
        }
        if cut(case.room) != case.room {
            list.push(Through { room: cut(case.room), ..case.clone() });
        }
    }
    list
}
