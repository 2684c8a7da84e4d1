//! `RowFeed` and memory: what it allocates and frees, and that it can be used after an allocation that failed. Little else may run in
//! this process meanwhile.

mod common;

use common::resident;
use hayro_ccitt::{DecodeSettings, EncodingMode, Fed, FeedError, RowFeed};
use std::process::Command;
use std::thread;

/// A row of eight pixels with the changes 3 and 5, in Group 4.
const ROW: [u8; 2] = [0x31, 0xC0];

fn settings(rows: u32) -> DecodeSettings {
    DecodeSettings {
        columns: 8,
        rows,
        end_of_block: true,
        end_of_line: false,
        rows_are_byte_aligned: false,
        encoding: EncodingMode::Group4,
        strict: false,
    }
}

#[test]
fn no_memory_is_allocated_for_rows_that_do_not_come() {
    let before = resident();
    let widest = DecodeSettings {
        columns: u32::MAX,
        ..settings(u32::MAX)
    };
    let mut feed = RowFeed::new(widest);
    feed.feed(&[0, 0]).unwrap();
    assert_eq!(feed.next_packed(), Ok(Fed::NeedsMore));
    feed.finish();
    assert!(matches!(feed.next_packed(), Err(FeedError::Data(_))));
    assert!(resident() < before + 10_000);
}

#[test]
fn a_feed_goes_to_threads_and_leaks_nothing() {
    fn is_thread_safe<
        T: Send + Sync + Unpin + std::panic::UnwindSafe + std::panic::RefUnwindSafe,
    >() {
    }
    is_thread_safe::<RowFeed>();
    is_thread_safe::<FeedError>();
    let quiet = |times: usize| {
        for _ in 0..times {
            let mut feed = RowFeed::new(settings(0));
            // More than is read: some of it is kept.
            feed.feed(&[&ROW[..], &[0; 20_000]].concat()).unwrap();
            thread::scope(|scope| {
                scope.spawn(move || assert_eq!(feed.next_row(), Ok(Fed::Row(&[3, 5][..]))));
            });
        }
    };
    quiet(100);
    let before = resident();
    quiet(4000);
    // The leaks would be 80 MB.
    assert!(resident() < before + 40_000, "{before} {}", resident());
}

/// Feeds zeros, which could all be fill, until no memory is left. The feed can be used as before.
#[test]
fn a_feed_can_be_used_after_a_failed_allocation() {
    let name = "a_feed_can_be_used_after_a_failed_allocation";
    if std::env::var("LITTLE_MEMORY").is_err() {
        let script = "ulimit -v 400000 && exec \"$0\" --exact --test-threads 1 \"$1\"";
        let program = std::env::current_exe().unwrap();
        let words = ["-c", script, program.to_str().unwrap(), name];
        let status = Command::new("sh")
            .args(words)
            .env("LITTLE_MEMORY", "1")
            .status();
        assert!(status.unwrap().success());
        return;
    }
    let mut feed = RowFeed::new(settings(0));
    feed.feed(&ROW).unwrap();
    assert_eq!(feed.next_row(), Ok(Fed::Row(&[3, 5][..])));
    let zeros = vec![0; 1 << 23];
    let fed = (0..100).find(|_| feed.feed(&zeros) == Err(FeedError::OutOfMemory));
    let fed = fed.expect("an allocation fails");
    assert!(fed > 0);
    drop(zeros);
    // Nothing of the last piece was fed: after the others the zeros of EOFB end.
    feed.feed(&[0x01, 0x00, 0x10, 0x31]).unwrap();
    assert_eq!(feed.next_row(), Ok(Fed::End));
    assert_eq!(feed.bytes_read(), 2 + (fed << 23) + 3);
    // The row's room isn't there, and later it is.
    let widest = DecodeSettings {
        columns: u32::MAX,
        ..settings(1)
    };
    let mut feed = RowFeed::new(widest);
    feed.feed(&[0x80]).unwrap();
    assert_eq!(feed.next_packed(), Err(FeedError::OutOfMemory));
    assert_eq!(feed.next_packed(), Err(FeedError::OutOfMemory));
    assert_eq!(feed.next_row(), Ok(Fed::Row(&[][..])));
}
