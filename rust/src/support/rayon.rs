//! The three calls by which derived code starts threads. Without `std` they do all in the calling thread.
use super::rattle_std::thread::Threads;

/// How many threads run at once.
pub fn current_num_threads<R: Threads>(_rt: &R) -> usize {
    #[cfg(feature = "std")]
    {
        use core::sync::atomic::{AtomicUsize, Ordering};
        // The system is asked once: each answer takes it some microseconds.
        static COUNT: AtomicUsize = AtomicUsize::new(0);
        let known = COUNT.load(Ordering::Relaxed);
        if known != 0 {
            return known;
        }
        let count = ::std::thread::available_parallelism().map_or(1, |count| count.get());
        COUNT.store(count, Ordering::Relaxed);
        count
    }
    #[cfg(not(feature = "std"))]
    1
}

/// What two closures return, which run side by side where a thread can be made.
pub fn join<R, A, B, F, G>(_rt: &R, first: F, second: G) -> (A, B)
where
    R: Threads,
    A: Send,
    B: Send,
    F: FnOnce() -> A + Send,
    G: FnOnce() -> B + Send,
{
    #[cfg(feature = "std")]
    {
        use ::std::panic::resume_unwind;
        use ::std::sync::Mutex;
        // The closure stays here, so that it is not lost if no thread can be made.
        let second = Mutex::new(Some(second));
        let call = || second.lock().unwrap().take().map(|second| second());
        ::std::thread::scope(|scope| {
            let other = ::std::thread::Builder::new().spawn_scoped(scope, call);
            let a = first();
            let b = match other {
                Ok(other) => other.join().unwrap_or_else(|panic| resume_unwind(panic)),
                Err(_) => call(),
            };
            (a, b.expect("the closure was not called yet"))
        })
    }
    #[cfg(not(feature = "std"))]
    (first(), second())
}

/// Calls two closures, side by side where a thread can be made.
pub fn join_mut<R, F, G>(rt: &R, first: &mut F, second: &mut G)
where
    R: Threads,
    F: FnMut() + Send,
    G: FnMut() + Send,
{
    join(rt, first, second);
}
