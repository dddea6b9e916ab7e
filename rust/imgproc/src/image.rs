//! Checks layouts, reads and writes pixels and rows, and copies rows to and from a packed plane.

use crate::refusal::opened;
use crate::{Geometry, Refusal};

/// The calls as C sees them, with slices for pointers. Each returns the number of the refusal, or 0 if accepted.
#[doc(hidden)]
#[allow(missing_docs)]
pub mod flat {
    use crate::ffi::call;
    use crate::Geometry;

    pub fn validate_layout(len: usize, g: Geometry) -> u32 {
        call!(imgproc_validate_layout(len, <g>))
    }

    pub fn get(data: &[u8], g: Geometry, x: usize, y: usize, value: &mut u8) -> u32 {
        call!(imgproc_get([data], <g>, x, y, value))
    }

    pub fn set(data: &mut [u8], g: Geometry, x: usize, y: usize, value: u8) -> u32 {
        call!(imgproc_set([mut data], <g>, x, y, value))
    }

    pub fn check_row(len: usize, g: Geometry, y: usize) -> u32 {
        call!(imgproc_check_row(len, <g>, y))
    }

    pub fn row(data: &[u8], g: Geometry, y: usize, out: &mut [u8]) -> u32 {
        call!(imgproc_row([data], <g>, y, [mut out]))
    }

    pub fn pack(src: &[u8], g: Geometry, workspace: &mut [u8], at: usize) -> u32 {
        call!(imgproc_pack([src], <g>, [mut workspace], at))
    }

    pub fn unpack(workspace: &[u8], at: usize, dst: &mut [u8], g: Geometry) -> u32 {
        call!(imgproc_unpack([workspace], at, [mut dst], <g>))
    }
}

/// Checks that a slice of `len` bytes holds the picture.
///
/// # Errors
///
/// Layout.
pub fn validate_layout(len: usize, geometry: Geometry) -> Result<(), Refusal> {
    opened(flat::validate_layout(len, geometry))
}

/// Returns pixel (x, y).
///
/// # Errors
///
/// Layout, then 9 outside the picture.
pub fn get(data: &[u8], geometry: Geometry, x: usize, y: usize) -> Result<u8, Refusal> {
    let mut value = 0;
    opened(flat::get(data, geometry, x, y, &mut value))?;
    Ok(value)
}

/// Writes pixel (x, y), and no other byte.
///
/// # Errors
///
/// Layout, then 9 outside the picture.
pub fn set(data: &mut [u8], geometry: Geometry, x: usize, y: usize, value: u8) -> Result<(), Refusal> {
    opened(flat::set(data, geometry, x, y, value))
}

/// Returns row y as the caller's own bytes.
///
/// # Errors
///
/// Layout, then 9 outside the picture.
pub fn row(data: &[u8], geometry: Geometry, y: usize) -> Result<&[u8], Refusal> {
    opened(flat::check_row(data.len(), geometry, y))?;
    Ok(&data[y * geometry.stride..][..geometry.width])
}

/// Returns row y as the caller's own bytes, to write to.
///
/// # Errors
///
/// Layout, then 9 outside the picture.
pub fn row_mut(data: &mut [u8], geometry: Geometry, y: usize) -> Result<&mut [u8], Refusal> {
    opened(flat::check_row(data.len(), geometry, y))?;
    Ok(&mut data[y * geometry.stride..][..geometry.width])
}

/// Copies row y to the first bytes of `out`, which has to hold a row.
///
/// # Errors
///
/// Layout, then 9 outside the picture, then 8 if `out` is shorter than the width.
pub fn copy_row(data: &[u8], geometry: Geometry, y: usize, out: &mut [u8]) -> Result<(), Refusal> {
    opened(flat::row(data, geometry, y, out))
}

/// Copies the rows to a packed plane of width * height bytes, from `at` on in the workspace.
///
/// # Errors
///
/// Layout, then 8 if the plane does not lie in the workspace.
pub fn pack(src: &[u8], geometry: Geometry, workspace: &mut [u8], at: usize) -> Result<(), Refusal> {
    opened(flat::pack(src, geometry, workspace, at))
}

/// Copies the packed plane from `at` on in the workspace to the destination's rows, and changes no other byte of it.
///
/// # Errors
///
/// Layout of the destination, then 8 if the plane does not lie in the workspace.
pub fn unpack(workspace: &[u8], at: usize, dst: &mut [u8], geometry: Geometry) -> Result<(), Refusal> {
    opened(flat::unpack(workspace, at, dst, geometry))
}
