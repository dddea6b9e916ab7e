//! Records: a reading kept in 28 bytes, with the flask that was read and the number of the pass.
//!
//! The bytes begin with the mark, 52 31 hexadecimal. The numbers follow in the order of [`Record`]'s fields, each in as
//! many bytes as its type has, the highest byte first.
//!
//! ```
//! use imgproc::reading::ReadingCounts;
//! use imgproc::records::{Record, RECORD_BYTES};
//! use imgproc::{Geometry, Refusal};
//!
//! // The second pass over flask 7, in a picture of 40 × 30.
//! let counts = ReadingCounts { dark: 480, light: 620, skipped: 100, comparisons: 23_520 };
//! let record = Record::of_reading(7, 2, Geometry::packed(40, 30), counts)?;
//! let mut bytes = [0; RECORD_BYTES];
//! record.write(&mut bytes)?;
//! assert_eq!(bytes[..8], [0x52, 0x31, 0, 0, 0, 7, 0, 2]);
//! assert_eq!(Record::read(&bytes), Ok(record));
//!
//! // The last byte is missing.
//! assert_eq!(Record::read(&bytes[..27]), Err(Refusal::NoRecord));
//! // One byte is altered, and the counts no longer add up.
//! bytes[15] += 1;
//! assert_eq!(Record::read(&bytes), Err(Refusal::BadRecord));
//! # Ok::<(), Refusal>(())
//! ```

use crate::reading::ReadingCounts;
use crate::refusal::opened;
use crate::{Geometry, Refusal};

/// The number of bytes of a record.
pub const RECORD_BYTES: usize = 28;

/// A reading that is kept, by numbers of the widths that its bytes have.
///
/// The values of a record are good if each side is in 1..=[`MAX_SIDE`](crate::MAX_SIDE), and dark + light + skipped is
/// width * height. A struct may hold others: [`Record::write`] refuses these.
#[derive(Clone, Copy, Debug, PartialEq, Eq)]
pub struct Record {
    /// The number of the flask that was read.
    pub flask: u32,
    /// The number of the pass.
    pub pass: u16,
    /// The picture's width.
    pub width: u16,
    /// The picture's height.
    pub height: u16,
    /// The number of pixels judged dark.
    pub dark: u32,
    /// The number of pixels judged light.
    pub light: u32,
    /// The number of pixels that were not judged.
    pub skipped: u32,
    /// The number of comparisons of samples that the reading made.
    pub comparisons: u32,
}

/// The calls as C sees them, with slices for pointers. Each returns the number of the refusal, or 0 if accepted.
#[doc(hidden)]
#[allow(missing_docs)]
pub mod flat {
    use crate::ffi::call;
    use crate::reading::ReadingCounts;

    pub fn record_write(
        flask: u32, pass: u16, width: usize, height: usize, counts: ReadingCounts, destination: &mut [u8],
    ) -> u32 {
        let ReadingCounts { dark, light, skipped, comparisons } = counts;
        call!(imgproc_record_write(flask, pass, width, height, dark, light, skipped, comparisons, [mut destination]))
    }

    pub fn record_read(
        source: &[u8], flask: &mut u32, pass: &mut u16, width: &mut usize, height: &mut usize,
        counts: &mut ReadingCounts,
    ) -> u32 {
        call!(imgproc_record_read(
            [source],
            flask,
            pass,
            width,
            height,
            &mut counts.dark,
            &mut counts.light,
            &mut counts.skipped,
            &mut counts.comparisons
        ))
    }
}

impl Record {
    /// Makes the record of a picture's reading. The geometry's stride does not matter.
    ///
    /// # Errors
    ///
    /// 14 if the values are not good, or the comparisons do not fit their field.
    pub fn of_reading(flask: u32, pass: u16, geometry: Geometry, counts: ReadingCounts) -> Result<Self, Refusal> {
        // The write checks the numbers in the types of a reading, and what it writes has those of a record.
        let mut bytes = [0; RECORD_BYTES];
        opened(flat::record_write(flask, pass, geometry.width, geometry.height, counts, &mut bytes))?;
        Self::read(&bytes)
    }

    /// Writes the record to the first [`RECORD_BYTES`] bytes, and changes no byte after them.
    ///
    /// # Errors
    ///
    /// 13 if the destination is shorter, then 14 if the values are not good.
    pub fn write(&self, destination: &mut [u8]) -> Result<(), Refusal> {
        let counts = ReadingCounts {
            dark: self.dark.into(),
            light: self.light.into(),
            skipped: self.skipped.into(),
            comparisons: self.comparisons.into(),
        };
        let (width, height) = (self.width.into(), self.height.into());
        opened(flat::record_write(self.flask, self.pass, width, height, counts, destination))
    }

    /// Reads the record in the first [`RECORD_BYTES`] bytes. Later bytes do not matter.
    ///
    /// # Errors
    ///
    /// 13 if the source is shorter or has another mark, then 14 if the values are not good.
    pub fn read(source: &[u8]) -> Result<Self, Refusal> {
        let (mut flask, mut pass, mut width, mut height) = (0, 0, 0, 0);
        let mut counts = ReadingCounts::default();
        opened(flat::record_read(source, &mut flask, &mut pass, &mut width, &mut height, &mut counts))?;
        // Each of these numbers comes out of a field of its width.
        Ok(Self {
            flask,
            pass,
            width: width as u16,
            height: height as u16,
            dark: counts.dark as u32,
            light: counts.light as u32,
            skipped: counts.skipped as u32,
            comparisons: counts.comparisons as u32,
        })
    }
}
