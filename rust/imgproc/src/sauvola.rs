//! Sauvola's threshold in whole numbers.
//!
//! ```
//! use imgproc::sauvola::{sauvola_into, sauvola_narrow_into, workspace_len, SauvolaConfig};
//! use imgproc::{Geometry, Refusal};
//!
//! // A light picture of 300 × 300 with a dark line.
//! let geometry = Geometry::packed(300, 300);
//! let mut picture = vec![200; geometry.area()];
//! picture[140 * 300..141 * 300].fill(50);
//! let (mut marked, mut narrowly) = (vec![0; geometry.area()], vec![0; geometry.area()]);
//! let mut workspace = vec![0_u64; workspace_len(300, 300)];
//! let mut narrow = vec![0_u32; workspace_len(300, 300)];
//!
//! let config = SauvolaConfig::default();
//! sauvola_into(&picture, geometry, &mut marked, geometry, &config, &mut workspace)?;
//! assert_eq!(marked.iter().filter(|&&value| value == 0).count(), 300);
//! sauvola_narrow_into(&picture, geometry, &mut narrowly, geometry, &config, &mut narrow)?;
//! assert_eq!(narrowly, marked);
//!
//! // A window as large as this picture has too many pixels.
//! let config = SauvolaConfig { radius: 300, ..config };
//! let answer = sauvola_narrow_into(&picture, geometry, &mut narrowly, geometry, &config, &mut narrow);
//! assert_eq!(answer, Err(Refusal::WindowTooLarge));
//! # Ok::<(), Refusal>(())
//! ```

use crate::refusal::opened;
use crate::{Geometry, Refusal, SettingError};

/// The most pixels of a window of [`sauvola_narrow_into`]: 32 bits hold the sum of that many squares of bytes.
pub const MAX_WINDOW: usize = 66_051;

/// Settings of [`sauvola_into`] and of [`sauvola_narrow_into`].
#[derive(Clone, Copy, Debug, PartialEq, Eq)]
pub struct SauvolaConfig {
    /// The window reaches this far to each side; not 0.
    pub radius: usize,
    /// Sauvola's k in thousandths, at most 1000.
    pub k_milli: u32,
    /// The spread at which the threshold is the window's mean; not 0.
    pub dynamic_range: u32,
    /// Written for a pixel at or below its threshold.
    pub dark_value: u8,
    /// Written for every other pixel.
    pub light_value: u8,
}

impl Default for SauvolaConfig {
    fn default() -> Self {
        Self { radius: 8, k_milli: 200, dynamic_range: 128, dark_value: 0, light_value: 255 }
    }
}

impl SauvolaConfig {
    /// Names the first setting that is out of range.
    ///
    /// # Errors
    ///
    /// Checks the radius, then k_milli, then the range.
    pub const fn check(&self) -> Result<(), SettingError> {
        if self.radius == 0 {
            return Err(SettingError::Radius);
        }
        if self.k_milli > 1000 {
            return Err(SettingError::KMilli);
        }
        if self.dynamic_range == 0 {
            return Err(SettingError::DynamicRange);
        }
        Ok(())
    }
}

/// The calls as C sees them, with slices for pointers. Each returns the number of the refusal, or 0 if accepted.
#[doc(hidden)]
#[allow(missing_docs)]
pub mod flat {
    use super::SauvolaConfig;
    use crate::ffi::call;
    use crate::Geometry;

    pub fn sauvola_into(
        src: &[u8], s: Geometry, dst: &mut [u8], d: Geometry, config: &SauvolaConfig, workspace: &mut [u64],
    ) -> u32 {
        let SauvolaConfig { radius, k_milli, dynamic_range, dark_value, light_value } = *config;
        call!(imgproc_sauvola_into(
            [src], <s>, [mut dst], <d>, radius, k_milli, dynamic_range, dark_value, light_value, [mut workspace]
        ))
    }

    pub fn sauvola_narrow_into(
        src: &[u8], s: Geometry, dst: &mut [u8], d: Geometry, config: &SauvolaConfig, workspace: &mut [u32],
    ) -> u32 {
        let SauvolaConfig { radius, k_milli, dynamic_range, dark_value, light_value } = *config;
        call!(imgproc_sauvola_narrow_into(
            [src], <s>, [mut dst], <d>, radius, k_milli, dynamic_range, dark_value, light_value, [mut workspace]
        ))
    }
}

/// Writes the dark or the light value for each pixel. The workspace needs [`workspace_len`] u64s.
///
/// # Errors
///
/// Layout of the source, layout of the destination, 5 if they differ in width or height, 7 if
/// [`SauvolaConfig::check`] finds a fault, 8 if the workspace is too short.
pub fn sauvola_into(
    src: &[u8], src_geometry: Geometry, dst: &mut [u8], dst_geometry: Geometry, config: &SauvolaConfig,
    workspace: &mut [u64],
) -> Result<(), Refusal> {
    opened(flat::sauvola_into(src, src_geometry, dst, dst_geometry, config, workspace))
}

/// Writes what [`sauvola_into`] writes, with half the workspace: it needs [`workspace_len`] u32s. No window may have
/// more than [`MAX_WINDOW`] pixels.
///
/// # Errors
///
/// Layout of the source, layout of the destination, 5 if they differ in width or height, 7 if
/// [`SauvolaConfig::check`] finds a fault, 12 if the largest window, min(2 * radius + 1, width) * min(2 * radius + 1,
/// height) pixels, is above [`MAX_WINDOW`], 8 if the workspace is too short. The product is the true one for every
/// radius.
pub fn sauvola_narrow_into(
    src: &[u8], src_geometry: Geometry, dst: &mut [u8], dst_geometry: Geometry, config: &SauvolaConfig,
    workspace: &mut [u32],
) -> Result<(), Refusal> {
    opened(flat::sauvola_narrow_into(src, src_geometry, dst, dst_geometry, config, workspace))
}

/// Returns the length of the workspace that a picture needs, in u64s for [`sauvola_into`] and in u32s for
/// [`sauvola_narrow_into`]: two tables of (width + 1) * (height + 1).
pub const fn workspace_len(width: usize, height: usize) -> usize {
    Geometry::packed(width.saturating_add(1), height.saturating_add(1)).area().saturating_mul(2)
}
