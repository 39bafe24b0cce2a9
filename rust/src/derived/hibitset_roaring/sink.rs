// Derived from crates/hibitset_roaring/src/sink.rt by rust/derive.py, and never edited by hand.

//! What the containers of a stream are read into.

use crate::support::rattle_std::prelude::*;

use crate::derived::hibitset_roaring::decode_container::read_container;
use crate::derived::hibitset_roaring::error::ReadError;
use crate::derived::hibitset_roaring::header::{Header, KEYS};
use crate::derived::hibitset_roaring::layout::CONTAINER_WORDS;
use crate::derived::hibitset_sparse::SparseBitSet;
use crate::support::rattle_std::alloc::{AllocError, Global};

/// What takes the members of a stream, container by container.
pub(crate) trait ContainerSink {
    /// Adds the members of a container, whose key lies above those before it.
    ///
    /// # Contract
    ///
    /// ```text
    /// requires header { IsHeader bytes.now header.now }
    /// requires which { k < header.now.count }
    /// requires at { at ≡ container_at bytes.now k }
    /// requires within { container_at bytes.now (k + 1) ≤ length bytes.now }
    /// requires key { key_of bytes.now k < KEYS }
    /// requires order { words_len self.old ≤ 1024 * key_of bytes.now k }
    /// ensures container { OnOk result (IsContainer bytes.now k) }
    /// ensures length { OnOk result (words_len self.new ≤ 1024 * (key_of bytes.now k + 1)) }
    /// ensures members { OnOk result (AddsContainer bytes.now k (holds self.old)
    ///     (holds self.new)) }
    /// ensures reason { IfErr result (λ error. (end : ℕ) → IsReason bytes.now end error) }
    /// ```
    fn take_container(
        &mut self,
        bytes: &[u8],
        header: &Header,
        k: usize,
        at: usize,
    ) -> Result<(), ReadError>;
}

/// All words of layer 0, up to those of the last container.
impl ContainerSink for Vec<usize> {
    #[inline]
    fn take_container(
        &mut self,
        bytes: &[u8],
        header: &Header,
        k: usize,
        at: usize,
    ) -> Result<(), ReadError> {
        let key = header.key(bytes, k);
        read_container(bytes, header, k, at, self, key)
    }
}

/// A sparse set, and a buffer for the words of one container.
pub(crate) struct SparseSink {
    pub(crate) set: SparseBitSet,
    words: Vec<usize>,
}

impl SparseSink {
    /// An empty set, with a buffer for the words of a container.
    ///
    /// # Contract
    ///
    /// ```text
    /// ensures { IfOk result (λ sink. (i : ℕ) → has sink.set i ≡ false) }
    /// ```
    pub(crate) fn new(alloc: Global) -> Result<SparseSink, AllocError> {
        let set = SparseBitSet::new(alloc);
        let words = Vec::with_capacity(alloc, CONTAINER_WORDS)?;
        Ok(SparseSink { set, words })
    }

    /// The set.
    ///
    /// # Contract
    ///
    /// ```text
    /// ensures { result ≡ self.set }
    /// ```
    pub(crate) fn into_set(self) -> SparseBitSet {
        let SparseSink { set, words: _words } = self;
        set
    }
}

impl ContainerSink for SparseSink {
    fn take_container(
        &mut self,
        bytes: &[u8],
        header: &Header,
        k: usize,
        at: usize,
    ) -> Result<(), ReadError> {
        let key = header.key(bytes, k);
        self.words.clear();
        read_container(bytes, header, k, at, &mut self.words, 0)?;
        self.set.add_words(CONTAINER_WORDS * key, &self.words)?;
        Ok(())
    }
}
