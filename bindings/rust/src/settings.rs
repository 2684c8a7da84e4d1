//! The settings as the calls take them.

use crate::{DecodeSettings, EncodingMode, PackedLayout, c};

const LOW_FIRST: u32 = 16;
const BLACK_IS_0: u32 = 32;
/// The flag of encoding that stands for the same as [`BLACK_IS_0`].
const ENCODED_BLACK_IS_0: u32 = 128;

impl From<&DecodeSettings> for c::Settings {
    fn from(settings: &DecodeSettings) -> Self {
        let flags = [
            settings.end_of_block,
            settings.end_of_line,
            settings.rows_are_byte_aligned,
            settings.strict,
        ];
        Self {
            columns: settings.columns,
            rows: settings.rows,
            encoding: number_of(settings.encoding),
            flags: sum_of(&flags),
            stride: 0,
        }
    }
}

fn number_of(encoding: EncodingMode) -> u32 {
    match encoding {
        EncodingMode::Group4 => 0,
        EncodingMode::Group3_1D => 1,
        EncodingMode::Group3_2D => 2,
    }
}

/// Returns the sum of flags: 1, 2, 4 and so on.
fn sum_of(flags: &[bool]) -> u32 {
    flags
        .iter()
        .rev()
        .fold(0, |sum, flag| sum * 2 + u32::from(*flag))
}

impl c::Settings {
    /// Returns the same settings, with each byte's lowest bit first.
    pub(crate) fn low_first(self) -> Self {
        Self {
            flags: self.flags | LOW_FIRST,
            ..self
        }
    }

    /// Returns the same settings, with 0 for black in packed rows.
    pub(crate) fn black_is_0(self) -> Self {
        Self {
            flags: self.flags | BLACK_IS_0,
            ..self
        }
    }

    /// Returns the same settings with this layout of packed rows.
    pub(crate) fn laid_out(self, layout: PackedLayout) -> Self {
        let settings = if layout.black_is_0 {
            self.black_is_0()
        } else {
            self
        };
        Self {
            stride: layout.stride,
            ..settings
        }
    }
}

impl From<&crate::EncodeSettings> for c::EncodeSettings {
    fn from(settings: &crate::EncodeSettings) -> Self {
        // The flag of a strict reading, between those of alignment and of the order of bits, isn't one of encoding.
        let flags = [
            settings.end_of_block,
            settings.end_of_line,
            settings.rows_are_byte_aligned,
            false,
            settings.low_first,
            settings.eols_end_at_bytes,
            settings.shortest,
        ];
        Self {
            columns: settings.columns,
            encoding: number_of(settings.encoding),
            flags: sum_of(&flags),
            k: settings.k,
            stride: 0,
        }
    }
}

impl c::EncodeSettings {
    /// Returns the same settings with this layout of packed rows.
    pub(crate) fn laid_out(self, layout: PackedLayout) -> Self {
        let black = if layout.black_is_0 {
            ENCODED_BLACK_IS_0
        } else {
            0
        };
        Self {
            flags: self.flags | black,
            stride: layout.stride,
            ..self
        }
    }
}
