//! The square root of an f64.

/// Returns the correctly rounded square root. The root of -0.0 is -0.0; the root of a NaN or of a number below zero is
/// a NaN.
pub fn root(x: f64) -> f64 {
    crate::ffi::call!(imgproc_root(x))
}
