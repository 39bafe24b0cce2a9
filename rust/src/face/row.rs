//! The words of an atomic set, which are made at the first addition.

use crate::derived::hibitset_atomic::SharedBitSet;
use crate::{AllocError, BitSetLike, Index};

#[cfg(feature = "std")]
pub(crate) use lazy::Row;
#[cfg(not(feature = "std"))]
pub(crate) use made::Row;

#[cfg(feature = "std")]
mod lazy {
    use super::*;
    use std::sync::OnceLock;

    /// A shared set, or the empty set, which has no words yet. Who reads a row that is not made waits for nobody.
    pub(crate) struct Row(OnceLock<SharedBitSet>);

    impl Row {
        #[inline]
        pub(crate) const fn new() -> Row {
            Row(OnceLock::new())
        }

        #[inline]
        pub(crate) fn get(&self) -> Option<&SharedBitSet> {
            self.0.get()
        }

        #[inline]
        pub(crate) fn get_mut(&mut self) -> Option<&mut SharedBitSet> {
            self.0.get_mut()
        }

        /// Puts words in, unless they are there. Of several threads that made some at once, one puts its own in, and the
        /// others drop theirs: who waits here waits for a move of some bytes.
        fn put(&self, words: SharedBitSet) -> &SharedBitSet {
            self.0.get_or_init(|| words)
        }

        #[cold]
        #[inline(never)]
        fn make(&self) -> &SharedBitSet {
            self.put(SharedBitSet::empty())
        }

        #[cold]
        #[inline(never)]
        fn try_make(&self) -> Result<&SharedBitSet, AllocError> {
            Ok(self.put(SharedBitSet::try_empty()?))
        }

        #[inline]
        pub(crate) fn get_or_make(&self) -> &SharedBitSet {
            match self.get() {
                Some(words) => words,
                None => self.make(),
            }
        }

        #[inline]
        pub(crate) fn try_get_or_make(&self) -> Result<&SharedBitSet, AllocError> {
            match self.get() {
                Some(words) => Ok(words),
                None => self.try_make(),
            }
        }

        pub(crate) fn into_words(self) -> Option<SharedBitSet> {
            self.0.into_inner()
        }
    }

    impl From<SharedBitSet> for Row {
        fn from(words: SharedBitSet) -> Row {
            Row(OnceLock::from(words))
        }
    }
}

#[cfg(not(feature = "std"))]
mod made {
    use super::*;

    /// A shared set. Without `std` there is no cell that threads can fill without `unsafe`, so its words are made at once.
    pub(crate) struct Row(SharedBitSet);

    impl Row {
        pub(crate) fn new() -> Row {
            Row(SharedBitSet::empty())
        }

        #[inline]
        pub(crate) fn get(&self) -> Option<&SharedBitSet> {
            Some(&self.0)
        }

        #[inline]
        pub(crate) fn get_mut(&mut self) -> Option<&mut SharedBitSet> {
            Some(&mut self.0)
        }

        #[inline]
        pub(crate) fn get_or_make(&self) -> &SharedBitSet {
            &self.0
        }

        #[inline]
        pub(crate) fn try_get_or_make(&self) -> Result<&SharedBitSet, AllocError> {
            Ok(&self.0)
        }

        pub(crate) fn into_words(self) -> Option<SharedBitSet> {
            Some(self.0)
        }
    }

    impl From<SharedBitSet> for Row {
        fn from(words: SharedBitSet) -> Row {
            Row(words)
        }
    }
}

impl Row {
    /// A row whose words are made, or the error, if there is no memory.
    pub(crate) fn try_made() -> Result<Row, AllocError> {
        SharedBitSet::try_empty().map(Row::from)
    }
}

// What a call reads of the words, and what it answers for the empty set.
macro_rules! reads {
    ($($name:ident($($argument:ident: $type:ty)?) -> $result:ty, $empty:expr;)*) => {
        impl BitSetLike for Row {
            $(#[inline]
            fn $name(&self, $($argument: $type)?) -> $result {
                match self.get() {
                    Some(words) => BitSetLike::$name(words, $($argument)?),
                    None => $empty,
                }
            })*
        }
    };
}

reads! {
    is_empty() -> bool, true;
    has_cheap_words() -> bool, true;
    layer4() -> usize, 0;
    layer3(i: usize) -> usize, 0;
    layer2(i: usize) -> usize, 0;
    layer1(i: usize) -> usize, 0;
    layer0(i: usize) -> usize, 0;
    contains(i: Index) -> bool, false;
}
