//! A value that C holds without seeing it.

use super::owned::Owned;
use crate::lists::{Box, Global};

/// Nothing, or a box: for C a pointer, null for nothing.
#[repr(transparent)]
#[derive(Default)]
pub struct Handle(Option<Box<Owned>>);

impl Handle {
    pub(crate) fn dangling(_at: usize, _alloc: Global) -> Self {
        Self::default()
    }

    pub(crate) fn of(value: Box<Owned>) -> Self {
        Self(Some(value))
    }

    /// Returns the box: it is proved of each call that there is one.
    pub(crate) fn into_box(self) -> Box<Owned> {
        match self.0 {
            Some(value) => value,
            None => unreachable!("the handle of nothing"),
        }
    }
}
