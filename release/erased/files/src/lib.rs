//! Files of fax pages, whose readers `proved` has: their pages, and the pictures of these. All unsafe code is in `exports`.

#[cfg(target_family = "wasm")]
mod exports;
mod file;
#[doc(hidden)]
pub mod proved;

pub use file::{FaxFile, OpenError, PageInfo, Shown, decoded, png_of};

use decoder::lists;
