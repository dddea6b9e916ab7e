//! Safe Rust calls over the proved image-processing library.
//!
//! A picture is a slice of bytes and a [`Geometry`]: pixel (x, y) is the byte at y * stride + x. Every call takes
//! slices and returns a `Result`; a refused call leaves every slice as it was. The caller lends the workspaces: each
//! module has a function that returns the needed length, and [`reading::ReadingWorkspace`] owns those of a reading.
//!
//! ```
//! use imgproc::{image, Geometry, LumaError, Refusal};
//!
//! // Two rows of three pixels, the first with a byte of padding.
//! let mut data = [10, 20, 30, 0, 40, 50, 60];
//! let geometry = Geometry { width: 3, height: 2, stride: 4 };
//! assert_eq!(image::get(&data, geometry, 1, 1), Ok(50));
//! image::set(&mut data, geometry, 0, 1, 41)?;
//! assert_eq!(image::row(&data, geometry, 1)?, [41, 50, 60]);
//! assert_eq!(image::get(&data, geometry, 3, 0), Err(Refusal::Image(LumaError::OutsidePicture)));
//! # Ok::<(), Refusal>(())
//! ```
//!
//! An `# Errors` section lists the numbers of [`Refusal`] in the order in which the call tries them; the first that
//! fits is returned. "Layout" there means 1, 2, 3 and 4 of [`LumaError`], for one picture entirely before the next.
//!
//! The C interface needs valid pointers, true lengths and no overlap between what is written and anything else. Rust's
//! `&` and `&mut` ensure all three, so no call here is unsafe.

#![deny(missing_docs, missing_debug_implementations, unsafe_op_in_unsafe_fn)]
#![deny(clippy::undocumented_unsafe_blocks, clippy::missing_errors_doc)]

#[cfg(not(all(target_arch = "x86_64", target_pointer_width = "64")))]
compile_error!("the archive of imgproc_c is for x86-64");

mod ffi;
mod refusal;
pub use refusal::{LumaError, Refusal, SettingError};

pub mod grid;
pub mod illumination;
pub mod image;
pub mod morphology;
pub mod reading;
pub mod records;
pub mod root;
pub mod sauvola;

/// The largest side of a picture.
pub const MAX_SIDE: usize = 4096;

/// The sides of a picture and the distance from one row's first byte to the next one's.
#[derive(Clone, Copy, Debug, PartialEq, Eq, Hash)]
pub struct Geometry {
    /// The number of pixels in a row.
    pub width: usize,
    /// The number of rows.
    pub height: usize,
    /// The bytes from one row's first pixel to the next row's.
    pub stride: usize,
}

impl Geometry {
    /// Returns the geometry of rows that follow each other without padding.
    pub const fn packed(width: usize, height: usize) -> Self {
        Self { width, height, stride: width }
    }

    /// Returns the number of pixels, or the largest usize if it does not fit.
    pub const fn area(&self) -> usize {
        self.width.saturating_mul(self.height)
    }
}
