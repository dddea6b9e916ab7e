//! Division by the background.

use crate::refusal::opened;
use crate::{Geometry, Refusal, SettingError};

/// Settings of [`background_divide_into`].
#[derive(Clone, Copy, Debug, PartialEq, Eq)]
pub struct BackgroundDivideConfig {
    /// Kernel of the closing that gives the background; odd and at least 3. A dark object narrower than this is divided
    /// by its surroundings; a wider one is taken for background itself.
    pub structuring_element: usize,
    /// A pixel as bright as its background becomes this.
    pub target_luma: u8,
    /// The background is raised to this where it is below; not 0.
    pub denominator_floor: u8,
}

impl Default for BackgroundDivideConfig {
    fn default() -> Self {
        Self { structuring_element: 31, target_luma: 200, denominator_floor: 8 }
    }
}

impl BackgroundDivideConfig {
    /// Names the first setting that is out of range.
    ///
    /// # Errors
    ///
    /// Checks the element, then the floor.
    pub const fn check(&self) -> Result<(), SettingError> {
        if self.structuring_element < 3 || self.structuring_element % 2 == 0 {
            return Err(SettingError::StructuringElement);
        }
        if self.denominator_floor == 0 {
            return Err(SettingError::DenominatorFloor);
        }
        Ok(())
    }
}

/// The call as C sees it, with slices for pointers. It returns the number of the refusal, or 0 if accepted.
#[doc(hidden)]
#[allow(missing_docs)]
pub mod flat {
    use super::BackgroundDivideConfig;
    use crate::ffi::call;
    use crate::Geometry;

    pub fn background_divide_into(
        src: &[u8], s: Geometry, dst: &mut [u8], d: Geometry, config: &BackgroundDivideConfig, workspace: &mut [u8],
        comparisons: &mut u64,
    ) -> u32 {
        let BackgroundDivideConfig { structuring_element, target_luma, denominator_floor } = *config;
        call!(imgproc_background_divide_into(
            [src], <s>, [mut dst], <d>, structuring_element, target_luma, denominator_floor, [mut workspace],
            comparisons
        ))
    }
}

/// Divides each pixel by its background, and returns the number of comparisons of samples.
/// The workspace needs [`workspace_len`] bytes.
///
/// # Errors
///
/// Layout of the source, layout of the destination, 5 if they differ in width or height, 7 if
/// [`BackgroundDivideConfig::check`] finds a fault, 8 if the workspace is too short.
pub fn background_divide_into(
    src: &[u8], src_geometry: Geometry, dst: &mut [u8], dst_geometry: Geometry, config: &BackgroundDivideConfig,
    workspace: &mut [u8],
) -> Result<u64, Refusal> {
    let mut comparisons = 0;
    opened(flat::background_divide_into(src, src_geometry, dst, dst_geometry, config, workspace, &mut comparisons))?;
    Ok(comparisons)
}

/// Returns the length of the byte workspace that a picture needs.
pub const fn workspace_len(width: usize, height: usize) -> usize {
    Geometry::packed(width, height).area().saturating_mul(7)
}
