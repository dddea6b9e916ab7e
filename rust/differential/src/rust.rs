//! Turns the Rust's kinds of refusals into document 01's numbers, and makes its views.

use crate::document;
use imgproc::Geometry;
use qr_lab_image::{Gray8View, Gray8ViewMut, ImageError, LumaError};
use qr_lab_imgproc::ImgProcError;

pub fn luma(error: LumaError) -> u32 {
    match error {
        LumaError::EmptyDimensions => 1,
        LumaError::StrideTooSmall => 2,
        LumaError::BufferTooSmall => 3,
    }
}

pub fn imgproc(error: ImgProcError) -> u32 {
    match error {
        ImgProcError::Image(ImageError::Layout(error)) => luma(error),
        ImgProcError::DimensionMismatch => 5,
        ImgProcError::InvalidKernel => 6,
        ImgProcError::InvalidConfiguration => 7,
        other => unreachable!("no ported call gives {other:?}"),
    }
}

/// Returns the Rust's view, or else the number of its refusal. Adds the side limit of document 01 after the Rust's own.
pub fn view(data: &[u8], g: Geometry) -> Result<Gray8View<'_>, u32> {
    let view = Gray8View::new(data, g.width, g.height, g.stride).map_err(luma)?;
    limited(g, view)
}

pub fn view_mut(data: &mut [u8], g: Geometry) -> Result<Gray8ViewMut<'_>, u32> {
    let view = Gray8ViewMut::new(data, g.width, g.height, g.stride).map_err(luma)?;
    limited(g, view)
}

fn limited<T>(g: Geometry, view: T) -> Result<T, u32> {
    if document::side_too_large(g) {
        Err(document::SIDE_TOO_LARGE)
    } else {
        Ok(view)
    }
}
