//! The rows of an image are passed to a sink: the calls list them, and the lists are passed on.

use crate::calls::{decode_changes, hayro_ccitt_feed_rows_changes};
use crate::{
    Decoder, DecoderContext, PIECE, Result, c, error_of, feed_next, open_feed, usize_of, zeros,
};
use alloc::vec::Vec;

/// How many bytes data may have whose rows are listed at once.
const SHORT: usize = 1 << 14;

/// For how many numbers there is room at first in the lists of rows that are decoded at a time.
const LISTED: usize = 1 << 11;

/// Passes the rows to the decoder, and returns what [`decode`](crate::decode) does.
pub(crate) fn push_rows(
    data: &[u8],
    decoder: &mut impl Decoder,
    ctx: &mut DecoderContext,
    settings: &c::Settings,
) -> Result<usize> {
    match push_at_once(data, decoder, ctx, settings) {
        Some(result) => result,
        None => push_as_they_come(data, decoder, ctx, settings),
    }
}

/// Lists all rows of short data, and passes them to the decoder. Returns `None`, and passes none, if the data isn't short, or there
/// isn't room for them: there is for as many numbers as the data has bits, and one more.
fn push_at_once(
    data: &[u8],
    decoder: &mut impl Decoder,
    ctx: &mut DecoderContext,
    settings: &c::Settings,
) -> Option<Result<usize>> {
    if data.len() > SHORT {
        return None;
    }
    let mut lists = Vec::with_capacity(data.len() * 8 + 1);
    let (status, outcome) = decode_changes(data, settings, &mut lists);
    if status == c::REFUSED {
        return None;
    }
    push_listed(&lists, usize_of(outcome.rows), decoder);
    ctx.tell(&outcome, status != c::OK);
    Some(match status {
        // It is at most the length of the data.
        c::OK => Ok(outcome.bytes_read as usize),
        _ => Err(error_of(status)),
    })
}

/// Lists as many rows at a time as there is room for, and passes them to the decoder.
fn push_as_they_come(
    data: &[u8],
    decoder: &mut impl Decoder,
    ctx: &mut DecoderContext,
    settings: &c::Settings,
) -> Result<usize> {
    let mut feed = open_feed(settings);
    let mut pieces = data.chunks(PIECE);
    let mut lists = zeros(LISTED);
    let status = loop {
        let (mut count, row) = (0, &mut feed.row);
        let status = hayro_ccitt_feed_rows_changes(&mut feed.reader, &mut lists, &mut count, row);
        push_listed(&lists, count, decoder);
        match status {
            c::OK => {}
            c::NEEDS_MORE => feed_next(&mut feed, pieces.next()),
            c::REFUSED => lists = zeros(lists.len() * 2),
            status => break status,
        }
    };
    ctx.tell_of(&feed.row, status)
}

/// Passes the first rows of these lists to the decoder, as many as are counted.
fn push_listed(lists: &[u32], count: usize, decoder: &mut impl Decoder) {
    let mut rest = lists;
    let mut left = count;
    while left > 0 {
        // Each number and its changes are there.
        let Some((&length, after)) = rest.split_first() else {
            return;
        };
        let Some((changes, after)) = after.split_at_checked(length as usize) else {
            return;
        };
        decoder.push_row(changes);
        left -= 1;
        rest = after;
        if length == 0 {
            let white = white_rows(rest, left);
            for _ in 0..white {
                decoder.push_row(&[]);
            }
            left -= white;
            rest = &rest[white..];
        }
    }
}

/// How many rows are looked at together, to see whether all are white.
const TOGETHER: usize = 8;

/// Returns a number of white rows with which these lists begin, at most `most`: each is a 0. There may be some more.
fn white_rows(lists: &[u32], most: usize) -> usize {
    let lists = &lists[..most.min(lists.len())];
    let white = |rows: &&[u32]| rows.iter().fold(0, |sum, row| sum | row) == 0;
    lists.chunks_exact(TOGETHER).take_while(white).count() * TOGETHER
}
