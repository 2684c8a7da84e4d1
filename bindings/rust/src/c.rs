//! The calls for C, as values that close what they open.

use crate::calls::{
    Feed as FeedOfC, Reader, ViolationOutcome, hayro_ccitt_check, hayro_ccitt_close,
    hayro_ccitt_decode_packed, hayro_ccitt_feed, hayro_ccitt_feed_close, hayro_ccitt_feed_finish,
    hayro_ccitt_feed_next_changes, hayro_ccitt_feed_next_packed, hayro_ccitt_feed_open,
    hayro_ccitt_feed_rows_packed, hayro_ccitt_feed_unused, hayro_ccitt_next_changes,
    hayro_ccitt_next_packed, hayro_ccitt_open,
};

pub(crate) use crate::calls::{
    EncodeSettings, INVALID_CODE, NEEDS_MORE, NO_ROW, NOT_TAKEN, OK, OUT_OF_MEMORY, OVERFLOW,
    Outcome, REFUSED, RowOutcome as Row, Settings, UNEXPECTED_EOF, VIOLATION, encode_bitmap,
};

/// Checks data in the grade of this number, and returns the status and what is found.
pub(crate) fn check(
    data: &[u8],
    settings: &Settings,
    grade: u32,
    k: u32,
) -> (u32, ViolationOutcome) {
    let mut found = ViolationOutcome::default();
    let status = hayro_ccitt_check(data, settings, grade, k, &mut found);
    (status, found)
}

/// Packs the rows, and returns the status and the outcome.
pub(crate) fn decode_packed(data: &[u8], settings: &Settings, bitmap: &mut [u8]) -> (u32, Outcome) {
    let mut outcome = Outcome::default();
    let status = hayro_ccitt_decode_packed(data, settings, bitmap, &mut outcome);
    (status, outcome)
}

/// A reader of the rows of some data. It is closed when it is dropped.
pub(crate) struct Rows<'a> {
    data: &'a [u8],
    reader: Reader,
    /// The outcome of the last call.
    pub(crate) row: Row,
}

impl<'a> Rows<'a> {
    /// Opens a reader, or returns the status. With data that is too long it isn't open, and each call returns `NOT_TAKEN`.
    pub(crate) fn open(data: &'a [u8], settings: &Settings) -> Result<Self, u32> {
        let (mut reader, row) = (Reader::default(), Row::default());
        match hayro_ccitt_open(data, settings, &mut reader) {
            OK | NOT_TAKEN => Ok(Self { data, reader, row }),
            status => Err(status),
        }
    }

    /// Lists the changes of the next row, and returns the status.
    #[inline]
    pub(crate) fn next_changes(&mut self, changes: &mut [u32]) -> u32 {
        hayro_ccitt_next_changes(self.data, &mut self.reader, changes, &mut self.row)
    }

    /// Packs the next row, and returns the status.
    pub(crate) fn next_packed(&mut self, packed: &mut [u8]) -> u32 {
        hayro_ccitt_next_packed(self.data, &mut self.reader, packed, &mut self.row)
    }
}

impl Drop for Rows<'_> {
    fn drop(&mut self) {
        // A reader that isn't open stays as it is.
        hayro_ccitt_close(&mut self.reader);
    }
}

/// An open reader of the rows of data that comes in pieces. It is closed when it is dropped.
pub(crate) struct Feed {
    pub(crate) reader: FeedOfC,
    /// The outcome of the last call that read.
    pub(crate) row: Row,
}

impl Feed {
    /// Opens a reader, or returns the status.
    pub(crate) fn open(settings: &Settings) -> Result<Self, u32> {
        let (mut reader, row) = (FeedOfC::default(), Row::default());
        match hayro_ccitt_feed_open(settings, &mut reader) {
            OK => Ok(Self { reader, row }),
            status => Err(status),
        }
    }

    /// Feeds the bytes that come next, and returns the status.
    pub(crate) fn feed(&mut self, bytes: &[u8]) -> u32 {
        hayro_ccitt_feed(&mut self.reader, bytes)
    }

    /// Finishes the data. It fails only where no reader is open.
    pub(crate) fn finish(&mut self) {
        hayro_ccitt_feed_finish(&mut self.reader);
    }

    /// Lists the changes of the next row, and returns the status.
    #[inline]
    pub(crate) fn next_changes(&mut self, changes: &mut [u32]) -> u32 {
        hayro_ccitt_feed_next_changes(&mut self.reader, changes, &mut self.row)
    }

    /// Packs the next row, and returns the status.
    pub(crate) fn next_packed(&mut self, packed: &mut [u8]) -> u32 {
        hayro_ccitt_feed_next_packed(&mut self.reader, packed, &mut self.row)
    }

    /// Packs the next rows, as many as there is room for, and returns the status and how many.
    pub(crate) fn rows_packed(&mut self, bitmap: &mut [u8]) -> (u32, usize) {
        let mut count = 0;
        let status =
            hayro_ccitt_feed_rows_packed(&mut self.reader, bitmap, &mut count, &mut self.row);
        (status, count)
    }

    /// Copies the bytes that were fed and aren't consumed if they are kept and there is room for all of them, and returns the status
    /// and how many there are.
    pub(crate) fn unused(&mut self, bytes: &mut [u8]) -> (u32, usize) {
        let mut count = 0;
        let status = hayro_ccitt_feed_unused(&mut self.reader, bytes, &mut count);
        (status, count)
    }
}

impl Drop for Feed {
    fn drop(&mut self) {
        hayro_ccitt_feed_close(&mut self.reader);
    }
}
