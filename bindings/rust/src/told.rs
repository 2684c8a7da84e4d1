//! What is reported of the rows that were read.

/// The methods of every reader of rows, over the outcome of its last call, which C fills in.
macro_rules! told_of_rows {
    (|$this:ident| $row:expr) => {
        /// Returns the number of rows read so far.
        pub fn rows_read(&$this) -> u64 {
            $row.rows
        }

        /// Returns the offset in bits at which the line of the last row begins, after its EOL. After an error, returns that of the line
        /// that couldn't be read, or the offset at which strict data lacks an EOL.
        pub fn line_start(&$this) -> usize {
            crate::usize_of($row.line_start)
        }

        /// Returns the number of bytes consumed so far, the last one rounded up; at the end of the image, what
        /// [`decode`](crate::decode) returns. After a fault of the data, returns those up to [`line_start`](Self::line_start).
        pub fn bytes_read(&$this) -> usize {
            crate::usize_of($row.bytes_read)
        }

        /// Returns the number of rows read so far whose line was damaged and repaired.
        pub fn damaged_rows(&$this) -> u64 {
            $row.damaged_rows
        }

        /// Returns the number of rows read so far, not repaired, after which other bits were passed up to the next EOL, or none was
        /// left. What follows the last row is read by the next call.
        pub fn missed_eols(&$this) -> u64 {
            $row.missed_eols
        }

        /// Returns the offset in bits at which the last call of [`next_row`](Self::next_row) missed an EOL, after the row that had been the
        /// last one before.
        pub fn missed_eol(&$this) -> Option<usize> {
            match $row.missed_eol {
                0 => None,
                place => Some(crate::usize_of(place)),
            }
        }

        /// Returns the number of rows read so far, not repaired, in which a run was cut at the row's end, where a strict reading fails.
        pub fn cut_rows(&$this) -> u64 {
            $row.cut_rows
        }

        /// Returns whether a run of the last row was cut at the row's end, and the row was not repaired.
        pub fn is_cut(&$this) -> bool {
            $row.is_cut != 0
        }

        /// Returns the fault of the last row if its line was damaged and repaired.
        pub fn damage(&$this) -> Option<crate::DecodeError> {
            match $row.damage as u32 {
                crate::c::OK => None,
                status => Some(crate::error_of(status)),
            }
        }
    };
}

pub(crate) use told_of_rows;
