//! Beside derived types, by hand: traits of std, conditions that are checked, and the shared set by `&`.

mod iterators;
#[cfg(feature = "parallel")]
mod rayon;
mod shared_set;

use crate::derived::hibitset_base::util::LAYERS;

pub use iterators::Masks;
pub(crate) use iterators::{iterator_members, size_hint};

/// The condition of `get_from_layer`: panics if there is no layer of that number.
#[inline]
pub(crate) fn check_layer(layer: usize) {
    if layer >= LAYERS {
        no_layer(layer);
    }
}

#[cold]
#[inline(never)]
fn no_layer(layer: usize) -> ! {
    panic!("a set has {LAYERS} layers, and none with number {layer}")
}
