//! Words and microvolts by themselves.

use crate::ffi;
use crate::refusal::{accepted, Refusal};

/// How a word stands for a number of volts, or of a reading's unit.
#[derive(Clone, Copy, Debug, PartialEq, Eq)]
pub enum Format {
    /// ULINEAR16 with this exponent, -16 to 15.
    Ulinear16(i8),
    /// DIRECT with the slope m, the offset b and the exponent R.
    Direct {
        /// The slope, not 0.
        m: i16,
        /// The offset.
        b: i16,
        /// R, -12 to 12.
        r: i8,
    },
    /// LINEAR11, which READ_VIN, READ_IOUT and READ_TEMPERATURE_1 have, and which no host learns.
    Linear11,
}

impl Format {
    fn image(self) -> ffi::FormatImage {
        match self {
            Format::Ulinear16(exponent) => ffi::FormatImage { kind: 1, exponent, m: 0, b: 0 },
            Format::Direct { m, b, r } => ffi::FormatImage { kind: 2, exponent: r, m, b },
            Format::Linear11 => ffi::FormatImage { kind: 3, ..ffi::FormatImage::default() },
        }
    }

    pub(crate) fn of(image: ffi::FormatImage) -> Option<Format> {
        match image.kind {
            1 => Some(Format::Ulinear16(image.exponent)),
            2 => Some(Format::Direct { m: image.m, b: image.b, r: image.exponent }),
            3 => Some(Format::Linear11),
            _ => None,
        }
    }

    /// The whole millionths of a word's value, rounded down. H7 if the numbers are no format's, N5.
    ///
    /// ```
    /// use pmhost::Format;
    /// assert_eq!(Format::Ulinear16(-12).microvolts(0x34CD), Ok(3_300_048));
    /// assert_eq!(Format::Linear11.microvolts(0xD300), Ok(12_000_000)); // READ_VIN: 12 V
    /// ```
    pub fn microvolts(self, word: u16) -> Result<i64, Refusal> {
        let mut found = 0;
        // SAFETY: the references are valid, and the one that is written overlaps nothing.
        accepted(unsafe { ffi::pm_microvolts(&self.image(), word, &mut found) })?;
        Ok(found)
    }

    /// The word nearest to millionths. H7 if the numbers are no format's, N5, N3, N4.
    pub fn nearest_word(self, microvolts: i64) -> Result<u16, Refusal> {
        let mut found = 0;
        // SAFETY: as above.
        accepted(unsafe { ffi::pm_nearest_word(&self.image(), microvolts, &mut found) })?;
        Ok(found)
    }

    /// The word of the greatest value that isn't above millionths, as of a bound from above: N5, N3 if each is above them;
    /// above the greatest value it is that value's word. H7 if the numbers are no format's.
    ///
    /// ```
    /// use pmhost::Format;
    /// assert_eq!(Format::Ulinear16(-12).at_most(3_300_000), Ok(0x34CC)); // the nearest, 34CDh, is 3.300048 V
    /// assert_eq!(Format::Ulinear16(-12).at_least(3_300_000), Ok(0x34CD));
    /// ```
    pub fn at_most(self, microvolts: i64) -> Result<u16, Refusal> {
        let mut found = 0;
        // SAFETY: the references are valid, and the one that is written overlaps nothing.
        accepted(unsafe { ffi::pm_at_most(&self.image(), microvolts, &mut found) })?;
        Ok(found)
    }

    /// The word of the least value that isn't below millionths, as of a bound from below: N5, N4 if each is below them;
    /// below the least value it is that value's word. H7 if the numbers are no format's.
    pub fn at_least(self, microvolts: i64) -> Result<u16, Refusal> {
        let mut found = 0;
        // SAFETY: the references are valid, and the one that is written overlaps nothing.
        accepted(unsafe { ffi::pm_at_least(&self.image(), microvolts, &mut found) })?;
        Ok(found)
    }
}
