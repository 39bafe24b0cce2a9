//! Threads of tests.

use super::alloc::AllocError;
use super::rt::Wait;
use super::vec::Vec;
use ::std::io;
use ::std::num::NonZeroUsize;
use ::std::thread::{self, Builder, ScopedJoinHandle};

pub use super::rt::Threads;
pub use crate::support::rayon::join;
pub use ::std::thread::yield_now;

/// How many processors there are.
pub fn available_parallelism<R: Threads>(_rt: &R) -> io::Result<NonZeroUsize> {
    thread::available_parallelism()
}

/// Says in Rattle what a thread brings back.
pub trait Promise<T> {}

/// What a scope borrows, which contracts alone see.
pub struct ScopeEnv;

pub fn scope_env() -> ScopeEnv {
    ScopeEnv
}

/// Threads that end before the call of `scope` does.
pub struct Scope<'scope, 'env>(&'scope thread::Scope<'scope, 'env>);

pub struct Handle<'scope, T>(ScopedJoinHandle<'scope, T>);

pub fn scope<'env, R, T>(_env: ScopeEnv, _rt: &R, f: impl for<'scope> FnOnce(Scope<'scope, 'env>) -> T) -> T {
    thread::scope(|scope| f(Scope(scope)))
}

impl<'scope> Scope<'scope, '_> {
    pub fn spawn_with<P, T, F>(&self, _promise: P, f: F) -> io::Result<Handle<'scope, T>>
    where
        P: Promise<T>,
        T: Send + 'scope,
        F: FnOnce() -> T + Send + 'scope,
    {
        Builder::new().spawn_scoped(self.0, f).map(Handle)
    }
}

impl<T> Handle<'_, T> {
    pub fn join<R: Wait>(self, _rt: &R) -> T {
        self.0.join().unwrap_or_else(|panic| ::std::panic::resume_unwind(panic))
    }
}

/// What a function makes of each value, each in a thread of its own but the last.
pub fn map_vec<R: Threads + Sync, A: Send, B: Send>(
    _rt: &R,
    values: Vec<A>,
    f: &(impl Fn(A) -> B + Sync),
) -> Result<Vec<B>, AllocError> {
    let mut values: ::std::vec::Vec<A> = values.into_rust();
    let Some(last) = values.pop() else {
        return Ok(Vec::from_rust(::std::vec::Vec::new()));
    };
    Ok(thread::scope(|scope| {
        let handles: ::std::vec::Vec<_> = values.into_iter().map(|value| scope.spawn(move || f(value))).collect();
        let last = f(last);
        let mut made: ::std::vec::Vec<B> =
            handles.into_iter().map(|handle| handle.join().unwrap_or_else(|panic| ::std::panic::resume_unwind(panic))).collect();
        made.push(last);
        Vec::from_rust(made)
    }))
}
