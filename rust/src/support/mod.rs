//! What derived code calls and stable Rust has not: Rattle's `std`, `rayon` and `atomic_table`, in safe Rust by hand.

pub mod atomic_table;
pub mod rayon;
#[macro_use]
pub mod rattle_std;
#[cfg(all(test, feature = "std"))]
mod tests;
