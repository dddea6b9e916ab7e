//! Erosion, dilation, opening and closing with an odd square kernel.

use crate::refusal::opened;
use crate::{Geometry, Refusal};

macro_rules! sweeps {
    ($($call:ident $export:ident $what:literal)*) => {
        /// The calls as C sees them, with slices for pointers. Each returns the number of its refusal, 0 if accepted.
        #[doc(hidden)]
        #[allow(missing_docs)]
        pub mod flat {
            use crate::ffi::call;
            use crate::Geometry;

            $(pub fn $call(
                src: &[u8], s: Geometry, dst: &mut [u8], d: Geometry, kernel_size: usize, workspace: &mut [u8],
                comparisons: &mut u64,
            ) -> u32 {
                call!($export([src], <s>, [mut dst], <d>, kernel_size, [mut workspace], comparisons))
            })*
        }

        $(#[doc = $what]
        ///
        /// Returns the number of comparisons of samples. The workspace needs [`workspace_len`] bytes.
        ///
        /// # Errors
        ///
        /// Layout of the source, layout of the destination, 5 if they differ in width or height, 6 if the kernel is
        /// even or below 3, 8 if the workspace is too short.
        pub fn $call(
            src: &[u8], src_geometry: Geometry, dst: &mut [u8], dst_geometry: Geometry,
            kernel_size: usize, workspace: &mut [u8],
        ) -> Result<u64, Refusal> {
            let mut comparisons = 0;
            opened(flat::$call(src, src_geometry, dst, dst_geometry, kernel_size, workspace, &mut comparisons))?;
            Ok(comparisons)
        })*
    };
}

sweeps! {
    grayscale_erode_into imgproc_grayscale_erode_into "The minimum over each pixel's reach."
    grayscale_dilate_into imgproc_grayscale_dilate_into "The maximum over each pixel's reach."
    grayscale_open_into imgproc_grayscale_open_into "Erosion, then dilation."
    grayscale_close_into imgproc_grayscale_close_into "Dilation, then erosion."
}

/// Returns the length of the byte workspace that a picture needs.
pub const fn workspace_len(width: usize, height: usize) -> usize {
    Geometry::packed(width, height).area().saturating_mul(6)
}
