//! Lists of iterators.

use super::alloc::{AllocError, Global};
use super::vec::Vec;

/// `collect` of Rattle, into a vector.
pub trait CollectIn: Iterator + Sized {
    fn collect_in(self, alloc: Global) -> Result<Vec<Self::Item>, AllocError> {
        let mut list = Vec::new(alloc);
        list.extend(self)?;
        Ok(list)
    }
}

impl<I: Iterator> CollectIn for I {}
