//! What tests do with lists and slices.

use super::alloc::{AllocError, Global};
use super::vec::Vec;

impl<T> Vec<T> {
    pub fn retain(&mut self, keeps: impl FnMut(&T) -> bool) {
        let mut list = ::core::mem::replace(self, Vec::new(Global)).into_rust();
        list.retain(keeps);
        *self = Vec::from_rust(list);
    }
}

impl<T: PartialEq> Vec<T> {
    pub fn dedup(&mut self) {
        let mut list = ::core::mem::replace(self, Vec::new(Global)).into_rust();
        list.dedup();
        *self = Vec::from_rust(list);
    }
}

impl<T: Clone> Clone for Vec<T> {
    fn clone(&self) -> Vec<T> {
        Vec::from_rust(self.as_slice().to_vec())
    }
}

/// `to_vec` of Rattle's slices.
pub trait TryToVec<T> {
    fn try_to_vec(&self, alloc: Global) -> Result<Vec<T>, AllocError>;
}

impl<T: Clone> TryToVec<T> for [T] {
    fn try_to_vec(&self, alloc: Global) -> Result<Vec<T>, AllocError> {
        Vec::from_slice(alloc, self)
    }
}
