//! Whether an encoder that wrote some data kept the rules of T.4 and T.6.
//!
//! A decoder also reads data that breaks rules. This is for those who write encoders, or take data from them.

use crate::{DecodeSettings, Result, c, error_of, usize_of};
use core::fmt;

/// What is asked of data.
#[derive(Copy, Clone, Debug, PartialEq, Eq)]
pub enum Grade {
    /// It begins with an encoding of a picture that every decoder must read back as its rows, closed as the settings ask: by EOFB or
    /// RTC with `end_of_block`, or by as many rows as the limit. Any make-up words, modes and kinds of line are taken, and what follows
    /// the picture is ignored.
    Readable,
    /// It is what the coding procedure writes for its rows (T.4, 4.1 and 4.2; T.6, 2), and fewer than eight zeros. With a number K, at
    /// most K - 1 two-dimensional lines follow a one-dimensional one in two-dimensional Group 3 (T.4, 4.2.1); without one, any number.
    Procedure(Option<u32>),
}

/// A rule of T.4 or T.6. Its text, by `Display`, has its sections.
#[derive(Copy, Clone, Debug, PartialEq, Eq)]
#[non_exhaustive]
pub enum Rule {
    /// A word of a mode is expected.
    Mode,
    /// The words of a run are expected: make-up words and one terminating word.
    Run,
    /// A run or a vertical mode ends beyond the row's end.
    RowEnd,
    /// A run or a vertical mode has no pixels, where it must have some.
    NoPixels,
    /// There are no columns.
    Columns,
    /// An EOL is expected: before a line, or in RTC.
    Eol,
    /// A tag is expected.
    Tag,
    /// Zeros up to a whole byte are expected after a line.
    Padding,
    /// Pass mode is used to the row's end.
    PassToEnd,
    /// The coding procedure writes the line here with other words of a run, or other modes. The place is the first bit that
    /// differs.
    Procedure,
    /// A line is two-dimensional where K allows none. The place is that of its tag.
    Kind,
    /// Fill is before the first EOL, or before an EOL of RTC but its first.
    Fill,
    /// EOFB or RTC is due, or the end of the data.
    End,
}

/// The rules by their numbers, from 1 on, and their texts.
const RULES: [(Rule, &str); 13] = [
    (Rule::Mode, "a mode is expected (T.4, 4.2.1.3)"),
    (Rule::Run, "a run is expected (T.4, 4.1.1)"),
    (
        Rule::RowEnd,
        "beyond the row's end (T.4, 4.1.1 and 4.2.1.3)",
    ),
    (Rule::NoPixels, "no pixels (T.4, 4.1.1 and 4.2.1.3)"),
    (Rule::Columns, "no columns"),
    (Rule::Eol, "an EOL is expected (T.4, 4.1.2)"),
    (Rule::Tag, "a tag is expected (T.4, 4.2.2)"),
    (
        Rule::Padding,
        "zeros up to a whole byte are expected (T.4, 4.1.3)",
    ),
    (
        Rule::PassToEnd,
        "pass mode to the row's end (T.4, 4.2.1.3.2)",
    ),
    (
        Rule::Procedure,
        "not what the coding procedure writes (T.4, 4.1.1 and 4.2.1.3; T.6, 2.2)",
    ),
    (
        Rule::Kind,
        "a two-dimensional line where none may be (T.4, 4.2.1)",
    ),
    (Rule::Fill, "fill where none may be (T.4, 4.1.3 and 4.1.4)"),
    (
        Rule::End,
        "not the end that the coding procedure writes (T.4, 4.1.4; T.6, 2.4.1.1)",
    ),
];

impl fmt::Display for Rule {
    fn fmt(&self, f: &mut fmt::Formatter<'_>) -> fmt::Result {
        f.write_str(RULES[*self as usize].1)
    }
}

/// Where data breaks a rule.
#[derive(Copy, Clone, Debug, PartialEq, Eq)]
pub struct Violation {
    /// The offset in bits of the word that breaks the rule, or at which what it asks for is missing.
    pub place: usize,
    /// The rule that is broken there.
    pub rule: Rule,
}

impl fmt::Display for Violation {
    fn fmt(&self, f: &mut fmt::Formatter<'_>) -> fmt::Result {
        write!(f, "bit {}: {}", self.place, self.rule)
    }
}

/// Returns where data breaks a rule of the grade, or `None` if it conforms. Whether the settings are strict has no effect.
///
/// If an allocation fails, the program ends.
///
/// # Errors
///
/// [`Overflow`](crate::DecodeError::Overflow) is the only one: where `usize` has 32 bits, the data has 2^32 - 64 bits or more.
///
/// # Example
///
/// In Group 4 these are the words of horizontal mode, 8 white pixels and no black ones. Each decoder must read them as a white row, and
/// the procedure writes the word of a vertical mode.
///
/// ```
/// use hayro_ccitt::conforms::{Grade, Rule, first_violation};
/// use hayro_ccitt::{DecodeSettings, EncodingMode};
///
/// let settings = DecodeSettings {
///     columns: 8,
///     rows: 1,
///     end_of_block: false,
///     end_of_line: false,
///     rows_are_byte_aligned: false,
///     encoding: EncodingMode::Group4,
///     strict: false,
/// };
/// let data = [0x33, 0x0D, 0xC0];
/// assert_eq!(first_violation(&data, settings, Grade::Readable)?, None);
/// let found = first_violation(&data, settings, Grade::Procedure(None))?;
/// assert_eq!(found.map(|it| (it.place, it.rule)), Some((0, Rule::Procedure)));
/// // Horizontal mode, and then the words of no run.
/// let found = first_violation(&[0x20, 0x00], settings, Grade::Readable)?;
/// assert_eq!(found.map(|it| (it.place, it.rule)), Some((3, Rule::Run)));
/// # Ok::<(), hayro_ccitt::DecodeError>(())
/// ```
pub fn first_violation(
    data: &[u8],
    settings: DecodeSettings,
    grade: Grade,
) -> Result<Option<Violation>> {
    found_in(data, &c::Settings::from(&settings), grade)
}

/// Checks as [`first_violation`] does, with the lowest bit of each byte first, as in TIFF files of FillOrder 2. The place of a violation
/// counts bits in this order.
///
/// # Errors
///
/// That of [`first_violation`].
pub fn first_violation_low_first(
    data: &[u8],
    settings: DecodeSettings,
    grade: Grade,
) -> Result<Option<Violation>> {
    found_in(data, &c::Settings::from(&settings).low_first(), grade)
}

fn found_in(data: &[u8], settings: &c::Settings, grade: Grade) -> Result<Option<Violation>> {
    let (number, k) = match grade {
        Grade::Readable => (0, 0),
        // A K of 0 allows no two-dimensional line, as that of 1 does. For C 0 is none.
        Grade::Procedure(k) => (1, k.map_or(0, |k| k.max(1))),
    };
    let (status, found) = c::check(data, settings, number, k);
    match status {
        c::OK => Ok(None),
        c::VIOLATION => Ok(Some(Violation {
            place: usize_of(found.place),
            rule: RULES[found.rule as usize - 1].0,
        })),
        _ => Err(error_of(status)),
    }
}
