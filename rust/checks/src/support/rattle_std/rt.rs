//! Handles of tests and of the program.

pub use crate::support::package::rattle_std::rt::*;

use super::io::{self, OfRust, Print};

/// May end the process.
pub trait Abort {}

/// May block.
pub trait Wait {}

/// May read and write files.
pub trait Files {}

impl Abort for HostRuntime {}

impl Wait for HostRuntime {}

impl Files for HostRuntime {}

impl Print for HostRuntime {
    fn println(&self, value: impl ::core::fmt::Display) -> io::Result<()> {
        ::std::println!("{value}");
        Ok(())
    }
}

impl HostRuntime {
    pub fn stdin(&self) -> OfRust<::std::io::Stdin> {
        OfRust::new(::std::io::stdin())
    }

    pub fn stdout(&self) -> OfRust<::std::io::Stdout> {
        OfRust::new(::std::io::stdout())
    }
}
