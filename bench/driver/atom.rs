//! What the original needs of its dependency `atom`: a box that is set once. The original's atomic set keeps its blocks in such boxes.
use std::ops::Deref;
use std::ptr;
use std::sync::atomic::{AtomicPtr, Ordering};

/// What can be kept as a pointer.
pub trait Kept: Sized {
    type Value;
    fn into_pointer(self) -> *mut Self::Value;
    /// # Safety
    /// The pointer came from `into_pointer`, and is handed back once.
    unsafe fn from_pointer(pointer: *mut Self::Value) -> Self;
}

impl<T> Kept for Box<T> {
    type Value = T;
    fn into_pointer(self) -> *mut T {
        Box::into_raw(self)
    }
    unsafe fn from_pointer(pointer: *mut T) -> Self {
        unsafe { Box::from_raw(pointer) }
    }
}

pub struct AtomSetOnce<P: Kept> {
    pointer: AtomicPtr<P::Value>,
}

impl<P: Kept> AtomSetOnce<P> {
    pub fn empty() -> Self {
        AtomSetOnce { pointer: AtomicPtr::new(ptr::null_mut()) }
    }

    pub fn set_if_none(&self, value: P) -> Option<P> {
        let new = value.into_pointer();
        match self.pointer.compare_exchange(ptr::null_mut(), new, Ordering::AcqRel, Ordering::Acquire) {
            Ok(_) => None,
            // SAFETY: it was not stored, so it is handed back once.
            Err(_) => Some(unsafe { P::from_pointer(new) }),
        }
    }

    pub fn is_none(&self) -> bool {
        self.pointer.load(Ordering::Relaxed).is_null()
    }
}

impl<P: Kept + Deref<Target = P::Value>> AtomSetOnce<P> {
    pub fn get(&self) -> Option<&P::Value> {
        // SAFETY: once set it stays until the drop.
        unsafe { self.pointer.load(Ordering::Acquire).as_ref() }
    }
}

impl<T> AtomSetOnce<Box<T>> {
    pub fn get_mut(&mut self) -> Option<&mut T> {
        // SAFETY: as in `get`, and `self` is held alone.
        unsafe { self.pointer.load(Ordering::Acquire).as_mut() }
    }
}

impl<P: Kept> Drop for AtomSetOnce<P> {
    fn drop(&mut self) {
        let pointer = *self.pointer.get_mut();
        if !pointer.is_null() {
            // SAFETY: it came from `into_pointer` and is dropped once.
            drop(unsafe { P::from_pointer(pointer) });
        }
    }
}
