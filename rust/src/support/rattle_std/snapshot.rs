//! Values as they were, which contracts alone see.

use core::marker::PhantomData;

/// What a value was. At run time it is nothing.
pub struct Snapshot<T>(PhantomData<fn() -> T>);

impl<T> Snapshot<T> {
    #[inline]
    pub fn of(_value: &T) -> Snapshot<T> {
        Snapshot(PhantomData)
    }
}
