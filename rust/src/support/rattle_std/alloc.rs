//! The allocator and its errors.

use core::fmt::{self, Debug, Display, Formatter};

/// The one allocator.
#[derive(Clone, Copy, Debug, Default, PartialEq, Eq)]
pub struct Global;

/// An allocation failed.
#[derive(Clone, Copy, Debug, PartialEq, Eq)]
pub struct AllocError;

impl Display for AllocError {
    fn fmt(&self, f: &mut Formatter<'_>) -> fmt::Result {
        f.write_str("memory allocation failed")
    }
}

impl core::error::Error for AllocError {}

/// An allocation failed, and this could not be stored.
pub struct AllocFailed<T> {
    pub value: T,
}

impl<T> Debug for AllocFailed<T> {
    fn fmt(&self, f: &mut Formatter<'_>) -> fmt::Result {
        f.write_str("AllocFailed")
    }
}

impl<T> Display for AllocFailed<T> {
    fn fmt(&self, f: &mut Formatter<'_>) -> fmt::Result {
        Display::fmt(&AllocError, f)
    }
}

impl<T> core::error::Error for AllocFailed<T> {}

impl<T> From<AllocFailed<T>> for AllocError {
    fn from(_: AllocFailed<T>) -> AllocError {
        AllocError
    }
}

pub use super::rt::AllocGlobal;
