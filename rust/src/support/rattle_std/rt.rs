//! Handles: values that stand for what a call may do besides returning.

use super::alloc::Global;

/// May start threads.
pub trait Threads {}

/// Has the allocator.
pub trait AllocGlobal {
    fn alloc(&self) -> Global;
}

/// The runtime, which has all of them.
#[derive(Clone, Copy, Debug, Default)]
pub struct HostRuntime;

/// The runtime that `main` and tests have.
pub const fn host() -> HostRuntime {
    HostRuntime
}

impl Threads for HostRuntime {}

impl AllocGlobal for HostRuntime {
    fn alloc(&self) -> Global {
        Global
    }
}
