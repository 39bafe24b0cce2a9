//! Rattle's `std` as the package has it, and what tests and the program call beside it.

pub use super::package::rattle_std::*;
pub use core::{array, cell, iter};

pub mod fs;
pub mod io;
pub mod iterate;
#[macro_use]
mod macros;
pub mod rt;
mod slices;
pub mod string;
pub mod thread;

pub mod process {
    pub use super::rt::Abort;
    pub use ::std::process::ExitCode;
}

pub mod sync {
    pub use super::rt::Wait;
    pub use core::sync::atomic;
}

/// What Rattle has in scope everywhere.
pub mod prelude {
    pub use super::iterate::CollectIn;
    pub use super::slices::TryToVec;
    pub use super::string::{String, ToString};
    pub use crate::support::package::rattle_std::prelude::*;
}
