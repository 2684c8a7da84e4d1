//! What Rattle's std has and Rust's hasn't, in safe Rust: lists and boxes that report where an allocation fails. And what Rust compiles to
//! more than it has to.

use alloc::{boxed, vec};
use core::ops::{Deref, DerefMut};

/// The allocator of the program.
#[derive(Copy, Clone)]
pub struct Global;

/// An allocation failed.
#[derive(Debug)]
pub struct AllocError;

/// An allocation for this value failed.
pub struct AllocFailed<T>(pub T);

/// A list, of which a call that allocates reports a failure. Its other calls are those of Rust's vectors.
pub struct Vec<T>(vec::Vec<T>);

impl<T> Vec<T> {
    #[inline(always)]
    pub fn new(_alloc: Global) -> Self {
        Self(vec::Vec::new())
    }

    /// Creates a list with room for as many items.
    pub fn with_capacity(alloc: Global, count: usize) -> Result<Self, AllocError> {
        let mut items = Self::new(alloc);
        items.reserve_exact(count)?;
        Ok(items)
    }

    #[inline(always)]
    pub fn allocator(&self) -> &Global {
        &Global
    }

    pub fn push(&mut self, item: T) -> Result<(), AllocError> {
        self.reserve(1)?;
        self.0.push(item);
        Ok(())
    }

    pub fn insert(&mut self, place: usize, item: T) -> Result<(), AllocError> {
        self.reserve(1)?;
        self.0.insert(place, item);
        Ok(())
    }

    /// Adds an item. It is proved of each call that there is room for it, so that this allocates nothing.
    #[inline(always)]
    pub fn push_reserved(&mut self, item: T) {
        assert!(self.0.len() < self.0.capacity(), "no room for an item");
        self.0.push(item);
    }

    /// Removes the last item. It is proved of each call that there is one.
    #[inline(always)]
    pub fn take_last(&mut self) -> T {
        self.0.pop().expect("there is an item")
    }

    pub fn reserve(&mut self, more: usize) -> Result<(), AllocError> {
        self.0.try_reserve(more).map_err(|_| AllocError)
    }

    pub fn reserve_exact(&mut self, more: usize) -> Result<(), AllocError> {
        self.0.try_reserve_exact(more).map_err(|_| AllocError)
    }

    /// Returns the items as a vector of the standard library.
    pub fn into_inner(self) -> vec::Vec<T> {
        self.0
    }
}

impl<T: Copy> Vec<T> {
    /// Adds items. It is proved of each call that there is room for them, so that this allocates nothing.
    #[inline(always)]
    pub fn extend_reserved(&mut self, items: &[T]) {
        assert!(self.0.capacity() - self.0.len() >= items.len(), "no room for items");
        self.0.extend_from_slice(items);
    }

    /// Creates a list of as many copies of an item.
    pub fn filled(alloc: Global, item: T, count: usize) -> Result<Self, AllocError> {
        let mut items = Self::new(alloc);
        items.resize(count, item)?;
        Ok(items)
    }

    /// Creates a list of these items.
    pub fn copied(alloc: Global, from: &[T]) -> Result<Self, AllocError> {
        let mut items = Self::new(alloc);
        items.extend_from_slice(from)?;
        Ok(items)
    }

    pub fn extend_from_slice(&mut self, items: &[T]) -> Result<(), AllocError> {
        self.reserve(items.len())?;
        self.0.extend_from_slice(items);
        Ok(())
    }

    pub fn resize(&mut self, length: usize, item: T) -> Result<(), AllocError> {
        self.reserve(length.saturating_sub(self.0.len()))?;
        self.0.resize(length, item);
        Ok(())
    }
}

impl<T: Ord> Vec<T> {
    /// Sorts the items, of which equal ones are alike.
    pub fn sort(&mut self) -> Result<(), AllocError> {
        self.0.sort_unstable();
        Ok(())
    }
}

impl<'a, T> IntoIterator for &'a Vec<T> {
    type Item = &'a T;
    type IntoIter = core::slice::Iter<'a, T>;

    fn into_iter(self) -> Self::IntoIter {
        self.0.iter()
    }
}

#[cfg(feature = "std")]
impl From<AllocError> for std::io::Error {
    fn from(_: AllocError) -> Self {
        Self::from(std::io::ErrorKind::OutOfMemory)
    }
}

impl<T> Deref for Vec<T> {
    type Target = vec::Vec<T>;

    #[inline(always)]
    fn deref(&self) -> &vec::Vec<T> {
        &self.0
    }
}

impl<T> DerefMut for Vec<T> {
    #[inline(always)]
    fn deref_mut(&mut self) -> &mut vec::Vec<T> {
        &mut self.0
    }
}

/// A value on the heap: a slice of one, which can be allocated by a call that reports a failure.
#[repr(transparent)]
pub struct Box<T>(boxed::Box<[T; 1]>);

impl<T> Box<T> {
    pub fn new(_alloc: Global, value: T) -> Result<Self, AllocFailed<T>> {
        let mut items = vec::Vec::new();
        if items.try_reserve_exact(1).is_err() {
            return Err(AllocFailed(value));
        }
        items.push(value);
        items.try_into().map(Self).map_err(|_| unreachable!("one value"))
    }
}

impl<T> Deref for Box<T> {
    type Target = T;

    fn deref(&self) -> &T {
        &self.0[0]
    }
}

impl<T> DerefMut for Box<T> {
    fn deref_mut(&mut self) -> &mut T {
        &mut self.0[0]
    }
}

/// Returns the bytes of a word, the highest first, by a vector where there are any: WebAssembly has no other instruction that turns them.
#[inline(always)]
pub fn be_bytes(word: u64) -> [u8; 8] {
    #[cfg(vectors)]
    use core::simd::{ToBytes, prelude::*};
    #[cfg(vectors)]
    return simd_swizzle!(u64x2::splat(word).to_le_bytes(), [7, 6, 5, 4, 3, 2, 1, 0]).to_array();
    #[cfg(not(vectors))]
    word.to_be_bytes()
}

/// Returns the word whose bytes these are, the highest first, as `be_bytes` does.
#[inline(always)]
pub fn be_word(bytes: [u8; 8]) -> u64 {
    u64::from_le_bytes(be_bytes(u64::from_le_bytes(bytes)))
}
