//! What Rattle's `std` has and Rust's stable one has not.
//!
//! Most of it is `core` under the same names. By hand are values that say nothing at run time (`Global`, handles,
//! snapshots), and collections whose calls return an error if an allocation fails.

pub use core::{cmp, fmt, mem, ops};

pub mod alloc;
pub mod clone;
pub mod collections;
pub mod io;
#[macro_use]
mod macros;
pub mod rt;
pub mod snapshot;
#[macro_use]
#[cfg(test)]
pub mod test;
pub mod vec;

pub mod error {
    pub use core::error::Error;
}

pub mod marker {
    pub use core::marker::PhantomData;

    /// Says in Rattle what a contract sees of a type.
    pub trait Model {}
}

pub mod sync {
    pub use core::sync::atomic;
}

pub mod thread {
    pub use super::rt::Threads;
}

/// What Rattle has in scope everywhere.
pub mod prelude {
    pub use super::clone::TryClone;
    pub use super::rt::{AllocGlobal, HostRuntime};
    pub use super::vec::Vec;
}
