//! `rayon`, and the walk over a range that shows whether threads run side by side.

pub use super::package::rayon::*;

pub mod prelude {
    use super::join;
    use crate::support::rattle_std::thread::Threads;
    use core::ops::Range;

    /// A range whose items are visited in parts.
    pub struct Parts {
        range: Range<usize>,
        min_len: usize,
    }

    pub trait IntoParallelIterator {
        fn into_par_iter(self) -> Parts;
    }

    impl IntoParallelIterator for Range<usize> {
        fn into_par_iter(self) -> Parts {
            Parts { range: self, min_len: 1 }
        }
    }

    impl Parts {
        pub fn with_min_len(self, min_len: usize) -> Parts {
            Parts { min_len, ..self }
        }

        /// Visits both halves side by side, each in one thread.
        pub fn for_each<R: Threads + Sync>(self, rt: &R, visit: impl Fn(usize) + Sync) {
            let Range { start, end } = self.range;
            let middle = if end - start < 2 * self.min_len { end } else { start + (end - start) / 2 };
            join(rt, || (start..middle).for_each(&visit), || (middle..end).for_each(&visit));
        }
    }
}
