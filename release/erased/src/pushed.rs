//! The rows of an image are passed to a sink as they are read.

use crate::lists::Global;
use crate::proved::c_rows::report::{decoded, reported};
use crate::proved::c_rows::settings::{order_of, settings_for};
use crate::proved::hayro_ccitt as decoder;
use crate::{DecodeError, Decoder, DecoderContext, Result, c, error_of};

/// A sink of the caller's, which refuses no row.
struct Sink<'a, D>(&'a mut D);

impl<D: Decoder> decoder::Decoder for Sink<'_, D> {
    #[inline(always)]
    fn push_row(&mut self, changes: &[u32]) -> decoder::Result<()> {
        self.0.push_row(changes);
        Ok(())
    }
}

/// Passes the rows to the decoder, and returns what [`decode`](crate::decode) does.
pub(crate) fn push_rows(
    data: &[u8],
    decoder: &mut impl Decoder,
    ctx: &mut DecoderContext,
    settings: &c::Settings,
) -> Result<usize> {
    let Some(meant) = settings_for(data, settings) else {
        // The settings are valid, and data that has 2^32 bits fits only into more bits of `usize`.
        return Err(DecodeError::Overflow);
    };
    let report = decoded(Global, data, order_of(settings), meant, &mut Sink(decoder));
    let mut outcome = c::Outcome::default();
    let status = reported(&report, 0, &mut outcome);
    ctx.tell(&outcome, status != c::OK);
    match status {
        // It is at most the length of the data.
        c::OK => Ok(outcome.bytes_read as usize),
        _ => Err(error_of(status)),
    }
}
