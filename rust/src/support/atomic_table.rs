//! A table of atomic words, as derived code uses it: of seats and rules nothing is left at run time.
use super::rattle_std::alloc::AllocError;
use ::alloc::vec::Vec;
use core::marker::PhantomData;
use core::sync::atomic::{AtomicU64, Ordering::SeqCst};

/// What holds of the words, at all times.
pub trait TableRule<S, V, K> {}

/// What a step tells.
pub trait Play<S, V> {}

/// How a seat is cut in two.
pub trait Split<V> {}

/// How two seats are joined.
pub trait Join<V> {}

/// The permission to make steps. It takes no bytes.
pub struct Seat<S, V>(PhantomData<fn() -> (S, V)>);

impl<S, V> Seat<S, V> {
    /// A permission that the proof has elsewhere, as a part of one.
    #[inline]
    pub const fn erased() -> Self {
        Seat(PhantomData)
    }
}

/// The words.
pub struct Shared<S, V, K, P> {
    words: Vec<AtomicU64>,
    // Its types are of contracts alone: a function's result, so that they decide nothing of `Send` and `Sync`.
    #[allow(clippy::type_complexity)]
    of: PhantomData<fn() -> (S, V, K, P)>,
}

/// The owner of the words.
pub struct Table<S, V, K, P, A> {
    pub shared: Shared<S, V, K, P>,
    of: PhantomData<fn() -> A>,
}

/// The words, once no thread uses them.
pub struct Closed<S, A> {
    words: Vec<AtomicU64>,
    of: PhantomData<fn() -> (S, A)>,
}

impl<S, V, K, P: TableRule<S, V, K>, A> Table<S, V, K, P, A> {
    /// A table of these words, and its first seat.
    pub fn of_words(_alloc: A, first: &[u64], _key: &K) -> Result<(Self, Seat<S, V>), AllocError> {
        let mut words = Vec::new();
        words
            .try_reserve_exact(first.len())
            .map_err(|_| AllocError)?;
        words.extend(first.iter().map(|word| AtomicU64::new(*word)));
        let shared = Shared {
            words,
            of: PhantomData,
        };
        let table = Table {
            shared,
            of: PhantomData,
        };
        Ok((table, Seat(PhantomData)))
    }

    /// A table of zeros. The system gives their pages as they are touched.
    pub fn of_zeros(len: usize) -> Self {
        // The collection takes over the memory of the zeros, which is not touched.
        let words = ::alloc::vec![0; len]
            .into_iter()
            .map(AtomicU64::new)
            .collect();
        let shared = Shared {
            words,
            of: PhantomData,
        };
        Table {
            shared,
            of: PhantomData,
        }
    }

    /// The words, for good.
    pub fn close_with(self, _seat: Seat<S, V>) -> Closed<S, A> {
        Closed {
            words: self.shared.words,
            of: PhantomData,
        }
    }
}

impl<S, V, K, P: TableRule<S, V, K>> Shared<S, V, K, P> {
    /// A word, by the only reference to the table.
    #[inline]
    pub fn word_mut(&mut self, place: usize) -> &mut u64 {
        self.words[place].get_mut()
    }

    /// Makes words 0, by the only reference to the table.
    pub fn zero(&mut self, places: core::ops::Range<usize>) {
        for word in &mut self.words[places] {
            *word.get_mut() = 0;
        }
    }

    /// Reads a word.
    #[inline]
    pub fn load<M: Play<S, V>>(&self, _seat: &mut Seat<S, V>, place: usize) -> u64 {
        self.words[place].load(SeqCst)
    }

    /// Sets bits of a word, and returns the word as it was.
    #[inline]
    pub fn fetch_or<M: Play<S, V>>(&self, _seat: &mut Seat<S, V>, place: usize, bits: u64) -> u64 {
        self.words[place].fetch_or(bits, SeqCst)
    }

    /// A second seat.
    pub fn split_seat<M: Split<V>>(&self, _seat: &mut Seat<S, V>) -> Seat<S, V> {
        Seat(PhantomData)
    }

    /// Takes a second seat in.
    pub fn join_seat<M: Join<V>>(&self, _seat: &mut Seat<S, V>, _other: Seat<S, V>) {}
}

impl<S, A> Closed<S, A> {
    /// A word.
    #[inline]
    pub fn word(&self, place: usize) -> u64 {
        self.words[place].load(SeqCst)
    }

    /// Gives the words up.
    pub fn free(self) {}
}
