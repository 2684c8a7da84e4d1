//! What the programs take of Rattle's std: texts that report where an allocation fails, files, the arguments, and the standard streams, of
//! which each read and write is one call of the system's.

use crate::lists::{AllocError, Global, Vec};
use core::ffi::{CStr, c_char, c_int};
use core::fmt::Write as _;
use core::mem::ManuallyDrop;
use core::ops::Deref;
use std::os::fd::FromRawFd;

pub use core::{cmp, fmt, iter, mem, num, ops, option, result, slice, str};

/// Declares the program's first function. It is C's, since Rust's own start opens closed streams. As in the programs that the kit links,
/// SIGPIPE is ignored, so that a write that nobody reads fails.
#[macro_export]
macro_rules! begin_with {
    ($main:path) => {
        #[unsafe(no_mangle)]
        extern "C" fn main(
            count: core::ffi::c_int,
            words: *const *const core::ffi::c_char,
        ) -> core::ffi::c_int {
            $crate::system::ignore_broken_pipes();
            // SAFETY: the C library passes the arguments.
            let rt = unsafe { $crate::system::HostRuntime::new(count, words) };
            $main(rt).0.into()
        }
    };
}

macro_rules! print {
    ($rt:expr; $($text:tt)+) => { $crate::system::print_to($rt.stdout(), format_args!($($text)+)) };
}

macro_rules! println {
    ($rt:expr; $($text:tt)+) => { $crate::system::print_to($rt.stdout(), format_args!("{}\n", format_args!($($text)+))) };
}

macro_rules! eprintln {
    ($rt:expr; $($text:tt)+) => { $crate::system::print_to($rt.stderr(), format_args!("{}\n", format_args!($($text)+))) };
}

macro_rules! format {
    (in $alloc:expr; $($text:tt)+) => { $crate::system::formatted($alloc, format_args!($($text)+)) };
}

/// Writes a text.
pub fn print_to(mut stream: impl std::io::Write, text: fmt::Arguments) -> std::io::Result<()> {
    stream.write_fmt(text)
}

/// Returns a text.
pub fn formatted(alloc: Global, text: fmt::Arguments) -> Result<String, AllocError> {
    let mut made = String::new(alloc);
    made.write_fmt(text)?;
    Ok(made)
}

/// A text, of which a call that allocates reports a failure.
#[derive(PartialEq, Eq, PartialOrd, Ord)]
pub struct String(std::string::String);

/// Where a text is in memory.
pub struct Allocator;

impl Allocator {
    #[allow(clippy::should_implement_trait, reason = "it is so named in Rattle")]
    pub fn clone(&self) -> Result<Global, AllocError> {
        Ok(Global)
    }
}

impl String {
    pub fn new(_alloc: Global) -> Self {
        Self(std::string::String::new())
    }

    #[allow(clippy::should_implement_trait, reason = "it is so named in Rattle")]
    pub fn from_str(alloc: Global, text: &str) -> Result<Self, AllocError> {
        let mut made = Self::new(alloc);
        made.push_str(text)?;
        Ok(made)
    }

    pub fn allocator(&self) -> &Allocator {
        &Allocator
    }

    pub fn as_str(&self) -> &str {
        &self.0
    }

    pub fn push(&mut self, letter: char) -> Result<(), AllocError> {
        self.push_str(letter.encode_utf8(&mut [0; 4]))
    }

    pub fn push_str(&mut self, text: &str) -> Result<(), AllocError> {
        self.0.try_reserve(text.len()).map_err(|_| AllocError)?;
        self.0.push_str(text);
        Ok(())
    }

    pub fn write_fmt(&mut self, text: fmt::Arguments) -> Result<(), AllocError> {
        Growing(self).write_fmt(text).map_err(|_| AllocError)
    }
}

/// A text that is written to.
struct Growing<'a>(&'a mut String);

impl fmt::Write for Growing<'_> {
    fn write_str(&mut self, text: &str) -> fmt::Result {
        self.0.push_str(text).map_err(|_| fmt::Error)
    }
}

impl Deref for String {
    type Target = str;

    fn deref(&self) -> &str {
        &self.0
    }
}

impl fmt::Display for String {
    fn fmt(&self, out: &mut fmt::Formatter<'_>) -> fmt::Result {
        out.write_str(&self.0)
    }
}

const SIGPIPE: c_int = 13;
const SIG_IGN: usize = 1;

// SAFETY: it is so declared in C, and ignoring a signal calls nothing.
unsafe extern "C" {
    safe fn signal(number: c_int, handler: usize) -> usize;
}

/// Lets a write that nobody reads fail, in place of ending the program.
pub fn ignore_broken_pipes() {
    signal(SIGPIPE, SIG_IGN);
}

/// What a program is started with: its words, and the standard streams, which stay open.
pub struct HostRuntime {
    words: &'static [*const c_char],
    streams: [ManuallyDrop<std::fs::File>; 3],
}

impl HostRuntime {
    /// # Safety
    ///
    /// There are as many words, each a string that ends with a zero, and nothing writes to them.
    pub unsafe fn new(count: c_int, words: *const *const c_char) -> Self {
        let count = usize::try_from(count).unwrap_or(0);
        // SAFETY: of the caller.
        let words = unsafe { core::slice::from_raw_parts(words, count) };
        // SAFETY: the files are never closed. Where one isn't open, its calls fail.
        let streams = [0, 1, 2].map(|number| ManuallyDrop::new(unsafe { std::fs::File::from_raw_fd(number) }));
        Self { words, streams }
    }

    pub fn alloc(&self) -> Global {
        Global
    }

    pub fn process(&self) {}

    pub fn stdin(&self) -> &std::fs::File {
        &self.streams[0]
    }

    pub fn stdout(&self) -> &std::fs::File {
        &self.streams[1]
    }

    pub fn stderr(&self) -> &std::fs::File {
        &self.streams[2]
    }
}

pub mod env {
    use super::{Args, HostRuntime, Unfetched};

    /// Returns the arguments, beginning with the program's name.
    pub fn args(rt: &HostRuntime) -> Result<Args, Unfetched> {
        Ok(Args(rt.words))
    }
}

/// Arguments that aren't fetched yet.
pub struct Args(&'static [*const c_char]);

/// An argument isn't UTF-8, or an allocation failed.
pub struct Unfetched;

impl Args {
    pub fn skip(self, count: usize) -> Self {
        Self(self.0.get(count..).unwrap_or_default())
    }

    pub fn collect(self, alloc: Global) -> Result<Vec<String>, Unfetched> {
        let mut words = Vec::new(alloc);
        for word in self.0 {
            // SAFETY: it is a string that ends with a zero, and nothing writes to it.
            let text = unsafe { CStr::from_ptr(*word) }.to_str().map_err(|_| Unfetched)?;
            let copy = String::from_str(alloc, text).map_err(|_| Unfetched)?;
            words.push(copy).map_err(|_| Unfetched)?;
        }
        Ok(words)
    }
}

pub mod process {
    /// The status that a program ends with.
    pub struct ExitCode(pub u8);

    impl From<u8> for ExitCode {
        fn from(code: u8) -> Self {
            Self(code)
        }
    }

    pub fn id(_: ()) -> u32 {
        std::process::id()
    }
}

pub mod time {
    use super::HostRuntime;
    pub use std::time::Duration;

    #[derive(Clone, Copy, PartialEq, Eq, PartialOrd, Ord)]
    pub struct Instant(std::time::Instant);

    impl Instant {
        pub fn now(_: &HostRuntime) -> std::io::Result<Self> {
            Ok(Self(std::time::Instant::now()))
        }

        pub fn checked_add(&self, more: Duration) -> Option<Self> {
            self.0.checked_add(more).map(Self)
        }
    }
}

pub use std::os;

pub mod io {
    pub use std::io::{Error, ErrorKind, IsTerminal, Read, Result, Write};
}

pub mod fs {
    use super::{HostRuntime, String};
    use crate::lists::Global;
    use std::io::{Error, ErrorKind, Read, Result};

    pub use std::fs::Metadata;

    pub struct File(std::fs::File);

    pub struct OpenOptions(std::fs::OpenOptions);

    impl File {
        pub fn open(_: &HostRuntime, name: &str) -> Result<File> {
            std::fs::File::open(name).map(File)
        }

        pub fn create_new(_: &HostRuntime, name: &str) -> Result<File> {
            std::fs::File::create_new(name).map(File)
        }

        pub fn options() -> OpenOptions {
            OpenOptions(std::fs::File::options())
        }

        pub fn metadata(&self) -> Result<Metadata> {
            self.0.metadata()
        }

        pub fn try_clone(&self) -> Result<File> {
            self.0.try_clone().map(File)
        }
    }

    impl OpenOptions {
        pub fn write(mut self, is: bool) -> Self {
            self.0.write(is);
            self
        }

        pub fn open(self, _: &HostRuntime, name: &str) -> Result<File> {
            self.0.open(name).map(File)
        }
    }

    impl std::os::unix::fs::FileExt for File {
        fn read_at(&self, to: &mut [u8], offset: u64) -> Result<usize> {
            self.0.read_at(to, offset)
        }

        fn write_at(&self, from: &[u8], offset: u64) -> Result<usize> {
            self.0.write_at(from, offset)
        }
    }

    impl std::os::fd::AsRawFd for File {
        fn as_raw_fd(&self) -> std::os::fd::RawFd {
            self.0.as_raw_fd()
        }
    }

    impl Read for File {
        fn read(&mut self, to: &mut [u8]) -> Result<usize> {
            self.0.read(to)
        }
    }

    impl std::io::Write for File {
        fn write(&mut self, from: &[u8]) -> Result<usize> {
            self.0.write(from)
        }

        fn flush(&mut self) -> Result<()> {
            self.0.flush()
        }
    }

    pub fn metadata(_: &HostRuntime, name: &str) -> Result<Metadata> {
        std::fs::metadata(name)
    }

    pub fn rename(_: &HostRuntime, from: &str, to: &str) -> Result<()> {
        std::fs::rename(from, to)
    }

    pub fn remove_file(_: &HostRuntime, name: &str) -> Result<()> {
        std::fs::remove_file(name)
    }

    pub fn hard_link(_: &HostRuntime, from: &str, to: &str) -> Result<()> {
        std::fs::hard_link(from, to)
    }

    pub fn exists(_: &HostRuntime, name: &str) -> Result<bool> {
        std::fs::exists(name)
    }

    /// A path that is UTF-8.
    pub struct PathBuf(String);

    impl PathBuf {
        pub fn as_path(&self) -> &PathBuf {
            self
        }

        pub fn as_str(&self) -> &str {
            self.0.as_str()
        }
    }

    fn of_path(path: &std::path::Path) -> Result<PathBuf> {
        let text = path.to_str().ok_or(Error::from(ErrorKind::InvalidInput))?;
        Ok(PathBuf(String::from_str(Global, text)?))
    }

    pub fn canonicalize(_: &HostRuntime, name: &str) -> Result<PathBuf> {
        of_path(&std::fs::canonicalize(name)?)
    }

    pub struct DirEntry(PathBuf);

    impl DirEntry {
        pub fn path(&self) -> &PathBuf {
            &self.0
        }

        pub fn file_name(&self) -> &str {
            let path = self.0.as_str();
            path.rsplit_once('/').map_or(path, |(_, name)| name)
        }
    }

    pub fn read_dir(_: &HostRuntime, name: &str) -> Result<impl Iterator<Item = Result<DirEntry>>> {
        Ok(std::fs::read_dir(name)?.map(|entry| Ok(DirEntry(of_path(&entry?.path())?))))
    }
}
