//! A vector whose calls return an error if an allocation fails. The items are then as they were, but for those that
//! `extend` has appended before.

use super::alloc::{AllocError, AllocFailed, Global};
use super::clone::TryClone;
use ::alloc::vec::{IntoIter, Vec as Inner};
use core::fmt::{self, Debug, Formatter};
use core::ops::{Deref, DerefMut};
use core::slice;

#[derive(PartialEq, Eq)]
pub struct Vec<T>(Inner<T>);

impl<T> Vec<T> {
    /// The empty vector. It does not allocate.
    #[inline]
    pub const fn new(_alloc: Global) -> Vec<T> {
        Vec(Inner::new())
    }

    /// An empty vector with room for so many items.
    #[inline]
    pub fn with_capacity(alloc: Global, capacity: usize) -> Result<Vec<T>, AllocError> {
        let mut list = Vec::new(alloc);
        list.reserve_exact(capacity)?;
        Ok(list)
    }

    /// Rust's vector of the same items, which is not copied.
    #[inline]
    pub fn into_rust(self) -> Inner<T> {
        self.0
    }

    #[inline]
    pub fn from_rust(list: Inner<T>) -> Vec<T> {
        Vec(list)
    }

    /// The one allocator.
    #[inline]
    pub fn allocator(&self) -> &Global {
        &Global
    }

    /// How many items there is room for.
    #[inline]
    pub fn capacity(&self) -> usize {
        self.0.capacity()
    }

    /// The items.
    #[inline]
    pub fn as_slice(&self) -> &[T] {
        &self.0
    }

    /// The items, to be written.
    #[inline]
    pub fn as_mut_slice(&mut self) -> &mut [T] {
        &mut self.0
    }

    /// Makes room for so many more items, and for more beside them if it grows.
    #[inline]
    pub fn reserve(&mut self, more: usize) -> Result<(), AllocError> {
        self.0.try_reserve(more).map_err(|_| AllocError)
    }

    /// Makes room for so many more items, and no more.
    #[inline]
    pub fn reserve_exact(&mut self, more: usize) -> Result<(), AllocError> {
        self.0.try_reserve_exact(more).map_err(|_| AllocError)
    }

    /// Appends a value, or gives it back with the error.
    #[inline]
    pub fn push(&mut self, value: T) -> Result<(), AllocFailed<T>> {
        if self.0.len() == self.0.capacity() && self.0.try_reserve(1).is_err() {
            return Err(AllocFailed { value });
        }
        self.0.push(value);
        Ok(())
    }

    /// Puts a value before the item at an index, or gives it back with the error.
    #[inline]
    pub fn insert(&mut self, index: usize, value: T) -> Result<(), AllocFailed<T>> {
        if self.0.len() == self.0.capacity() && self.0.try_reserve(1).is_err() {
            return Err(AllocFailed { value });
        }
        self.0.insert(index, value);
        Ok(())
    }

    /// Takes the item at an index out, and moves those behind it.
    #[inline]
    pub fn remove(&mut self, index: usize) -> T {
        self.0.remove(index)
    }

    /// Gives back the capacity that no item uses, or keeps it if there is no memory for a smaller block. Rust's own call
    /// ends the process then.
    pub fn shrink_to_fit(&mut self) {
        if self.0.len() == self.0.capacity() {
            return;
        }
        let mut list = Inner::new();
        if list.try_reserve_exact(self.0.len()).is_ok() {
            list.append(&mut self.0);
            self.0 = list;
        }
    }

    /// Puts a value behind the others, for which there is room.
    #[inline]
    pub fn push_reserved(&mut self, value: T) {
        self.0.push(value);
    }

    /// Takes the last item off.
    #[inline]
    pub fn pop(&mut self) -> Option<T> {
        self.0.pop()
    }

    /// Drops the items from an index on. The capacity stays.
    #[inline]
    pub fn truncate(&mut self, len: usize) {
        self.0.truncate(len);
    }

    /// Drops all items. The capacity stays.
    #[inline]
    pub fn clear(&mut self) {
        self.0.clear();
    }

    /// Appends the items of an iterator, one by one.
    #[inline]
    pub fn extend<I: IntoIterator<Item = T>>(&mut self, iter: I) -> Result<(), AllocError> {
        for value in iter {
            self.push(value)?;
        }
        Ok(())
    }

    /// Moves all items of another vector behind its own.
    #[inline]
    pub fn append(&mut self, other: &mut Vec<T>) -> Result<(), AllocError> {
        self.reserve(other.0.len())?;
        self.0.append(&mut other.0);
        Ok(())
    }
}

impl<T: Clone> Vec<T> {
    /// Copies of values.
    #[inline]
    pub fn from_slice(alloc: Global, values: &[T]) -> Result<Vec<T>, AllocError> {
        let mut list = Vec::with_capacity(alloc, values.len())?;
        list.0.extend_from_slice(values);
        Ok(list)
    }

    /// Appends copies of values.
    #[inline]
    pub fn extend_from_slice(&mut self, values: &[T]) -> Result<(), AllocError> {
        self.reserve(values.len())?;
        self.0.extend_from_slice(values);
        Ok(())
    }

    /// Makes the length so many items: drops the last ones, or appends copies of a value.
    #[inline]
    pub fn resize(&mut self, len: usize, value: T) -> Result<(), AllocError> {
        self.reserve(len.saturating_sub(self.0.len()))?;
        self.0.resize(len, value);
        Ok(())
    }
}

impl<T: TryClone> Vec<T> {
    /// Copies of values, made one by one.
    pub fn from_clones(alloc: Global, values: &[T]) -> Result<Vec<T>, AllocError> {
        let mut list = Vec::with_capacity(alloc, values.len())?;
        for value in values {
            list.push_reserved(value.try_clone()?);
        }
        Ok(list)
    }
}

impl<T: Clone> TryClone for Vec<T> {
    fn try_clone(&self) -> Result<Vec<T>, AllocError> {
        let mut list = Vec::with_capacity(Global, self.0.len())?;
        list.extend_from_slice(&self.0)?;
        Ok(list)
    }
}

impl<T> Deref for Vec<T> {
    type Target = [T];

    #[inline]
    fn deref(&self) -> &[T] {
        &self.0
    }
}

impl<T> DerefMut for Vec<T> {
    #[inline]
    fn deref_mut(&mut self) -> &mut [T] {
        &mut self.0
    }
}

impl<T> IntoIterator for Vec<T> {
    type Item = T;
    type IntoIter = IntoIter<T>;

    #[inline]
    fn into_iter(self) -> IntoIter<T> {
        self.0.into_iter()
    }
}

impl<'a, T> IntoIterator for &'a Vec<T> {
    type Item = &'a T;
    type IntoIter = slice::Iter<'a, T>;

    #[inline]
    fn into_iter(self) -> slice::Iter<'a, T> {
        self.0.iter()
    }
}

impl<'a, T> IntoIterator for &'a mut Vec<T> {
    type Item = &'a mut T;
    type IntoIter = slice::IterMut<'a, T>;

    #[inline]
    fn into_iter(self) -> slice::IterMut<'a, T> {
        self.0.iter_mut()
    }
}

impl<T: Debug> Debug for Vec<T> {
    fn fmt(&self, f: &mut Formatter<'_>) -> fmt::Result {
        self.0.fmt(f)
    }
}
