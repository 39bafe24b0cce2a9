//! What the package has in its `support`, with what tests and the program call beside it.

#[macro_use]
#[path = "../../../src/support/mod.rs"]
mod package;
#[macro_use]
pub mod rattle_std;
pub mod rayon;

pub use package::atomic_table;
