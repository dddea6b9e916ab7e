//! The reasons why a call is refused, and the number of each.

use std::error::Error;
use std::fmt;

/// The refusals of a picture: its slice does not hold it, or the caller asks for a place outside it.
#[derive(Clone, Copy, Debug, PartialEq, Eq, Hash)]
#[non_exhaustive]
pub enum LumaError {
    /// 1: a side is zero.
    EmptyDimensions,
    /// 2: the stride is below the width.
    StrideTooSmall,
    /// 3: the slice is shorter than stride * (height - 1) + width.
    BufferTooSmall,
    /// 4: a side is above [`crate::MAX_SIDE`].
    SideTooLarge,
    /// 9: the pixel or row lies outside the picture, or the tile outside the grid.
    OutsidePicture,
}

/// The reason why a call was refused.
#[derive(Clone, Copy, Debug, PartialEq, Eq, Hash)]
#[non_exhaustive]
pub enum Refusal {
    /// A layout or a place.
    Image(LumaError),
    /// 5: source and destination differ in width or height.
    DimensionMismatch,
    /// 6: the kernel is even or below 3.
    InvalidKernel,
    /// 7: a setting is out of range. `check` of the settings names it.
    InvalidConfiguration,
    /// 8: the workspace, or the slice to copy to, is too short.
    WorkspaceTooSmall,
    /// 10: a buffer of thresholds, skips or counts of open tiles is too short.
    GridBufferTooSmall,
    /// 12: a window has more than [`crate::sauvola::MAX_WINDOW`] pixels.
    WindowTooLarge,
    /// 13: the bytes are fewer than [`crate::records::RECORD_BYTES`], or do not begin with a record's mark.
    NoRecord,
    /// 14: a record's side is not in 1..=[`crate::MAX_SIDE`], its counts do not add up to width * height, or a number
    /// does not fit its field.
    BadRecord,
    /// A number that these calls do not know.
    Unknown(u32),
}

/// A setting that is out of range. `check` of a kind of settings returns the first that it finds.
#[derive(Clone, Copy, Debug, PartialEq, Eq, Hash)]
#[non_exhaustive]
pub enum SettingError {
    /// `division.structuring_element` is even or below 3.
    StructuringElement,
    /// `division.denominator_floor` is 0.
    DenominatorFloor,
    /// `opening_kernel` is even or below 3.
    OpeningKernel,
    /// `grid.tile_width` is 0.
    TileWidth,
    /// `grid.tile_height` is 0.
    TileHeight,
    /// `grid.method` has a k that is not finite.
    MethodK,
    /// `grid.method` has a dynamic_range that is not finite, or not above 0.
    MethodDynamicRange,
    /// `sauvola.radius` is 0.
    Radius,
    /// `sauvola.k_milli` is above 1000.
    KMilli,
    /// `sauvola.dynamic_range` is 0.
    DynamicRange,
}

impl LumaError {
    /// Returns the number that the C interface gives.
    pub const fn number(self) -> u32 {
        match self {
            Self::EmptyDimensions => 1,
            Self::StrideTooSmall => 2,
            Self::BufferTooSmall => 3,
            Self::SideTooLarge => 4,
            Self::OutsidePicture => 9,
        }
    }

    const fn words(self) -> &'static str {
        match self {
            Self::EmptyDimensions => "a side of the picture is zero",
            Self::StrideTooSmall => "the stride is below the width",
            Self::BufferTooSmall => "the buffer does not hold the picture",
            Self::SideTooLarge => "a side of the picture is above the side limit",
            Self::OutsidePicture => "the place lies outside the picture or the grid",
        }
    }
}

impl Refusal {
    /// Returns the number that the C interface gives.
    pub const fn number(self) -> u32 {
        match self {
            Self::Image(error) => error.number(),
            Self::DimensionMismatch => 5,
            Self::InvalidKernel => 6,
            Self::InvalidConfiguration => 7,
            Self::WorkspaceTooSmall => 8,
            Self::GridBufferTooSmall => 10,
            Self::WindowTooLarge => 12,
            Self::NoRecord => 13,
            Self::BadRecord => 14,
            Self::Unknown(number) => number,
        }
    }

    /// Returns the refusal of a number, or `None` for 0.
    pub const fn from_number(number: u32) -> Option<Self> {
        Some(match number {
            0 => return None,
            1 => Self::Image(LumaError::EmptyDimensions),
            2 => Self::Image(LumaError::StrideTooSmall),
            3 => Self::Image(LumaError::BufferTooSmall),
            4 => Self::Image(LumaError::SideTooLarge),
            5 => Self::DimensionMismatch,
            6 => Self::InvalidKernel,
            7 => Self::InvalidConfiguration,
            8 => Self::WorkspaceTooSmall,
            9 => Self::Image(LumaError::OutsidePicture),
            10 => Self::GridBufferTooSmall,
            12 => Self::WindowTooLarge,
            13 => Self::NoRecord,
            14 => Self::BadRecord,
            other => Self::Unknown(other),
        })
    }

    const fn words(self) -> &'static str {
        match self {
            Self::Image(error) => error.words(),
            Self::DimensionMismatch => "source and destination differ in size",
            Self::InvalidKernel => "the kernel is even or below 3",
            Self::InvalidConfiguration => "a setting is out of range",
            Self::WorkspaceTooSmall => "the workspace is too short",
            Self::GridBufferTooSmall => "a grid buffer is too short",
            Self::WindowTooLarge => "a window has too many pixels",
            Self::NoRecord => "the bytes are too few for a record, or have another mark",
            Self::BadRecord => "no record has these numbers",
            Self::Unknown(_) => "the reason is not known here",
        }
    }
}

impl SettingError {
    /// Returns the path of the field at fault, from [`ReadingConfig`](crate::reading::ReadingConfig) on.
    pub const fn field(self) -> &'static str {
        match self {
            Self::StructuringElement => "division.structuring_element",
            Self::DenominatorFloor => "division.denominator_floor",
            Self::OpeningKernel => "opening_kernel",
            Self::TileWidth => "grid.tile_width",
            Self::TileHeight => "grid.tile_height",
            Self::MethodK => "grid.method.k",
            Self::MethodDynamicRange => "grid.method.dynamic_range",
            Self::Radius => "sauvola.radius",
            Self::KMilli => "sauvola.k_milli",
            Self::DynamicRange => "sauvola.dynamic_range",
        }
    }

    /// Returns the refusal of a call with this setting: 6 for the opening's kernel, 7 for every other.
    pub const fn refusal(self) -> Refusal {
        match self {
            Self::OpeningKernel => Refusal::InvalidKernel,
            _ => Refusal::InvalidConfiguration,
        }
    }

    const fn words(self) -> &'static str {
        match self {
            Self::StructuringElement | Self::OpeningKernel => "is even or below 3",
            Self::DenominatorFloor | Self::TileWidth | Self::TileHeight | Self::Radius | Self::DynamicRange => "is 0",
            Self::MethodK => "is not finite",
            Self::MethodDynamicRange => "is not finite, or not above 0",
            Self::KMilli => "is above 1000",
        }
    }
}

/// Turns the number of a call into a result.
pub(crate) fn opened(number: u32) -> Result<(), Refusal> {
    match Refusal::from_number(number) {
        None => Ok(()),
        Some(refusal) => Err(refusal),
    }
}

impl From<LumaError> for Refusal {
    fn from(error: LumaError) -> Self {
        Self::Image(error)
    }
}

impl From<SettingError> for Refusal {
    fn from(error: SettingError) -> Self {
        error.refusal()
    }
}

impl fmt::Display for LumaError {
    fn fmt(&self, f: &mut fmt::Formatter<'_>) -> fmt::Result {
        write!(f, "refused {}: {}", self.number(), self.words())
    }
}

impl fmt::Display for Refusal {
    fn fmt(&self, f: &mut fmt::Formatter<'_>) -> fmt::Result {
        write!(f, "refused {}: {}", self.number(), self.words())
    }
}

impl fmt::Display for SettingError {
    fn fmt(&self, f: &mut fmt::Formatter<'_>) -> fmt::Result {
        write!(f, "{} {}", self.field(), self.words())
    }
}

impl Error for LumaError {}

impl Error for Refusal {}

impl Error for SettingError {}
