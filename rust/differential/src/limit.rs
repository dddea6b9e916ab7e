//! Limits of a window that a call could have in place of document 02's. The self-test answers by each in the first case
//! in which it makes a difference, and checks that it is reported.

use crate::document::{window, WINDOW_LIMIT, WINDOW_TOO_LARGE, WORKSPACE_TOO_SMALL};
use crate::fault::Fault::{self, Limited};
use Limit::*;

#[derive(Clone, Copy, Debug, PartialEq, Eq)]
pub enum Limit {
    /// 66,052 pixels pass.
    OneMore,
    /// 66,051 pixels do not pass.
    OneLess,
    /// Every window passes.
    Missing,
    /// The window is not clipped to the picture.
    Unclipped,
    /// The window is clipped to the width alone, and to the height alone.
    ClippedAcross,
    ClippedDown,
    /// The window is the whole picture, by every radius.
    WholePicture,
    /// 2 * radius + 1 wraps at 64 bits, and at 32 bits.
    Wrapped,
    WrappedEarly,
    /// The window has 2 * radius pixels along a line.
    ShortOfOne,
    /// The window is refused before the settings, and after the workspace.
    BeforeSettings,
    AfterWorkspace,
}

pub const LIMITS: &[Fault] = &[
    Limited(OneMore),
    Limited(OneLess),
    Limited(Missing),
    Limited(Unclipped),
    Limited(ClippedAcross),
    Limited(ClippedDown),
    Limited(WholePicture),
    Limited(Wrapped),
    Limited(WrappedEarly),
    Limited(ShortOfOne),
    Limited(BeforeSettings),
    Limited(AfterWorkspace),
];

impl Limit {
    /// Tells whether the window of a radius does not pass in a picture of these sides.
    fn refuses(self, radius: usize, width: usize, height: usize) -> bool {
        // Larger sides are cut to 2^40, which no picture reaches.
        let side = (2 * radius as u128 + 1).min(1 << 40);
        let (w, h) = (width as u128, height as u128);
        let clipped = |side: u128| side.min(w) * side.min(h);
        match self {
            OneMore => window(radius, width, height) > WINDOW_LIMIT + 1,
            OneLess => window(radius, width, height) > WINDOW_LIMIT - 1,
            Missing => false,
            Unclipped => side * side > WINDOW_LIMIT,
            ClippedAcross => side.min(w) * side > WINDOW_LIMIT,
            ClippedDown => side * side.min(h) > WINDOW_LIMIT,
            WholePicture => w * h > WINDOW_LIMIT,
            Wrapped => clipped(radius.wrapping_mul(2).wrapping_add(1) as u128) > WINDOW_LIMIT,
            WrappedEarly => clipped(u128::from((radius as u32).wrapping_mul(2).wrapping_add(1))) > WINDOW_LIMIT,
            ShortOfOne => clipped(2 * radius as u128) > WINDOW_LIMIT,
            BeforeSettings | AfterWorkspace => window(radius, width, height) > WINDOW_LIMIT,
        }
    }

    /// Returns the number of a call whose layouts and sizes are right, by this limit: 7 if its settings are bad, 12 by
    /// the window, 8 if its workspace is short.
    pub fn number(self, radius: usize, [width, height]: [usize; 2], bad: bool, short: bool) -> u32 {
        let settings = (bad, 7);
        let window = (self.refuses(radius, width, height), WINDOW_TOO_LARGE);
        let workspace = (short, WORKSPACE_TOO_SMALL);
        let order = match self {
            BeforeSettings => [window, settings, workspace],
            AfterWorkspace => [settings, workspace, window],
            _ => [settings, window, workspace],
        };
        order.into_iter().find(|&(holds, _)| holds).map_or(0, |(_, number)| number)
    }
}
