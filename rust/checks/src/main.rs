//! The derived program `hibitset_run`, and as its unit tests all derived tests, over the derived files of the package.
#![no_std]
#![forbid(unsafe_code)]
#![allow(dead_code, unused_imports, unused_labels, unused_macros, unused_variables, mismatched_lifetime_syntaxes)]
#![allow(unconditional_panic, clippy::all)]

extern crate alloc;
extern crate std;

#[macro_use]
mod support;
#[path = "../../src/beside/mod.rs"]
mod beside;
#[path = "../../src/derived/mod.rs"]
mod libraries;
#[path = "derived/mod.rs"]
mod tests;

mod derived {
    pub use crate::libraries::*;
    pub use crate::tests::*;
}

fn main() -> ::std::process::ExitCode {
    derived::hibitset_run::main()
}
