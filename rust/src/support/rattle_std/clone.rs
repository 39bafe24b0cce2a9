//! Copies that can fail.

use super::alloc::AllocError;

/// `Clone` of Rattle: a copy allocates.
pub trait TryClone: Sized {
    fn try_clone(&self) -> Result<Self, AllocError>;
}

impl<T> TryClone for &T {
    #[inline]
    fn try_clone(&self) -> Result<Self, AllocError> {
        Ok(*self)
    }
}
