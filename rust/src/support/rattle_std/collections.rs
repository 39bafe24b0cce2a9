//! Maps. Rust's stable maps end the process if an allocation fails, so here no call returns an error.

use super::alloc::{AllocFailed, Global};
use ::alloc::collections::BTreeMap as Inner;
use core::marker::PhantomData;
use core::ops::{Deref, DerefMut};

pub struct BTreeMap<K, V>(Inner<K, V>);

impl<K: Ord, V> BTreeMap<K, V> {
    pub const fn new(_alloc: Global) -> BTreeMap<K, V> {
        BTreeMap(Inner::new())
    }

    pub fn insert(&mut self, key: K, value: V) -> Result<Option<V>, AllocFailed<(K, V)>> {
        Ok(self.0.insert(key, value))
    }
}

impl<K, V> Deref for BTreeMap<K, V> {
    type Target = Inner<K, V>;

    fn deref(&self) -> &Inner<K, V> {
        &self.0
    }
}

impl<K, V> DerefMut for BTreeMap<K, V> {
    fn deref_mut(&mut self) -> &mut Inner<K, V> {
        &mut self.0
    }
}

/// A list that only types of ghosts name.
pub struct LinkedList<T>(PhantomData<T>);
