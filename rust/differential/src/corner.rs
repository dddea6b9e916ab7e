//! The corners of the domain: sides and settings at the limits of what is compared with the Rust, and the limits of
//! records.

use crate::document;
use crate::records::edge::Edge;
use imgproc::grid::TileThresholdConfig;
use imgproc::MAX_SIDE;
use Corner::*;

/// The largest radius of the domain. The Rust's sums with a radius wrap near 2^64; from this radius on the clipped
/// window is the whole picture.
pub const LARGEST_RADIUS: usize = 65_536;
/// The largest offset of the domain. With a larger one the Rust's sum of base and offset can overflow.
pub const LARGEST_OFFSET: i16 = 32_512;

#[derive(Clone, Copy, Debug, PartialEq, Eq, PartialOrd, Ord)]
pub enum Corner {
    LargestPicture,
    /// A kernel longer than both sides of the picture, but not the largest.
    KernelAbovePicture,
    LargestKernel,
    /// The same for the kernel of the division's closing.
    ElementAbovePicture,
    LargestElement,
    /// Both tile sides above those of the picture, but not both the largest.
    TileAbovePicture,
    LargestTile,
    LargestNeighborhood,
    LargestRadius,
    /// The radius 2^64 - 1, which document 02's limit of the window has to count truly.
    EndlessRadius,
    /// A largest window of just as many pixels as document 02 lets pass.
    WindowAtLimit,
    /// The sum of a picture's squares is past 32 bits.
    WrappedTable,
    /// It is so 254 times, as often as one can be.
    OftenWrappedTable,
    LargestOffset,
    LeastOffset,
    /// A limit of a record, kept or just passed.
    Record(Edge),
}

impl Corner {
    /// Returns the name for a report.
    pub fn label(self) -> &'static str {
        match self {
            LargestPicture => "4096 x 4096",
            KernelAbovePicture => "kernel above the picture",
            LargestKernel => "kernel 2^64 - 1",
            ElementAbovePicture => "element above the picture",
            LargestElement => "element 2^64 - 1",
            TileAbovePicture => "tile above the picture",
            LargestTile => "tile 2^64 - 1",
            LargestNeighborhood => "neighborhood 65536",
            LargestRadius => "radius 65536",
            EndlessRadius => "radius 2^64 - 1",
            WindowAtLimit => "window of 66051",
            WrappedTable => "squares past 32 bits",
            OftenWrappedTable => "squares past 32 bits 254 times",
            LargestOffset => "offset 32512",
            LeastOffset => "offset -32768",
            Record(edge) => edge.label(),
        }
    }
}

// The corners of one setting each; a subject declares those of every setting that its call has.
pub const PICTURE: &[Corner] = &[LargestPicture];
pub const KERNEL: &[Corner] = &[KernelAbovePicture, LargestKernel];
pub const ELEMENT: &[Corner] = &[ElementAbovePicture, LargestElement];
pub const TILE: &[Corner] = &[TileAbovePicture, LargestTile];
pub const NEIGHBORHOOD: &[Corner] = &[LargestNeighborhood];
pub const RADIUS: &[Corner] = &[LargestRadius];
pub const WINDOW: &[Corner] = &[EndlessRadius, WindowAtLimit];
pub const WRAPPED: &[Corner] = &[WrappedTable, OftenWrappedTable];
pub const OFFSET: &[Corner] = &[LargestOffset, LeastOffset];

/// Returns those of the given corners that hold.
fn standing<const N: usize>(list: [(Corner, bool); N]) -> Vec<Corner> {
    list.into_iter().filter(|&(_, holds)| holds).map(|(corner, _)| corner).collect()
}

/// Tells whether a kernel is longer than both sides, yet not the largest.
fn above(kernel: usize, width: usize, height: usize) -> bool {
    kernel > width.max(height) && kernel != usize::MAX
}

pub fn picture(width: usize, height: usize) -> Vec<Corner> {
    standing([(LargestPicture, (width, height) == (MAX_SIDE, MAX_SIDE))])
}

pub fn kernel(size: usize, width: usize, height: usize) -> Vec<Corner> {
    standing([(KernelAbovePicture, above(size, width, height)), (LargestKernel, size == usize::MAX)])
}

pub fn element(size: usize, width: usize, height: usize) -> Vec<Corner> {
    standing([(ElementAbovePicture, above(size, width, height)), (LargestElement, size == usize::MAX)])
}

pub fn radius(radius: usize) -> Vec<Corner> {
    standing([(LargestRadius, radius == LARGEST_RADIUS)])
}

/// Returns the corners of a window, which document 02 limits.
pub fn window(radius: usize, width: usize, height: usize) -> Vec<Corner> {
    let at_limit = document::window(radius, width, height) == document::WINDOW_LIMIT;
    standing([(EndlessRadius, radius == usize::MAX), (WindowAtLimit, at_limit)])
}

/// Returns the corners of a picture's squares.
pub fn squares(pixels: impl Iterator<Item = u8>) -> Vec<Corner> {
    let sum: u64 = pixels.map(|pixel| u64::from(pixel).pow(2)).sum();
    standing([(WrappedTable, sum >> 32 > 0), (OftenWrappedTable, sum >> 32 == 254)])
}

pub fn tile(tile_width: usize, tile_height: usize, width: usize, height: usize) -> Vec<Corner> {
    let largest = (tile_width, tile_height) == (usize::MAX, usize::MAX);
    standing([(TileAbovePicture, tile_width > width && tile_height > height && !largest), (LargestTile, largest)])
}

/// Returns the corners of a grid's settings, its tile sides included.
pub fn grid(config: &TileThresholdConfig, width: usize, height: usize) -> Vec<Corner> {
    let mut list = tile(config.tile_width, config.tile_height, width, height);
    list.extend(standing([
        (LargestNeighborhood, config.neighborhood_radius == LARGEST_RADIUS),
        (LargestOffset, config.threshold_offset == LARGEST_OFFSET),
        (LeastOffset, config.threshold_offset == i16::MIN),
    ]));
    list
}

/// Returns the kernels at the corners: the least odd one above both sides, and the largest.
pub fn kernels(width: usize, height: usize) -> [usize; 2] {
    [(width.max(height) + 1) | 1, usize::MAX]
}
