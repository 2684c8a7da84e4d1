//! The calls for C without their allocator, and what else `c.rs` takes of their sources.

use crate::lists::Global;
use crate::proved::c_rows::encoding::{Unencoded, encoded};
use crate::proved::hayro_ccitt_c as proved;
use alloc::vec::Vec;

pub(crate) use crate::proved::c_rows::status::{
    INVALID_CODE, NEEDS_MORE, NO_ROW, NOT_TAKEN, OK, OUT_OF_MEMORY, OVERFLOW, REFUSED,
    UNEXPECTED_EOF, VIOLATION,
};
pub use proved::{
    EncodeOutcome, EncodeSettings, Feed, Outcome, Reader, RowOutcome, Settings, ViolationOutcome,
    Writer,
};

/// Encodes a bitmap, or returns the status.
pub(crate) fn encode_bitmap(bitmap: &[u8], settings: &EncodeSettings) -> Result<Vec<u8>, u32> {
    match encoded(Global, bitmap, settings) {
        Ok(bytes) => Ok(bytes.into_inner()),
        Err(Unencoded::NotTaken) => Err(NOT_TAKEN),
        Err(Unencoded::OutOfMemory) => Err(OUT_OF_MEMORY),
    }
}
