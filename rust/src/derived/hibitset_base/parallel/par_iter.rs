// Derived from crates/hibitset_base/src/parallel/par_iter.rt by rust/derive.py, and never edited by hand.

//! The calls that make a walk in several threads.

use crate::support::rattle_std::prelude::*;

use super::cost::{
    CALL_COST, CostModel, Estimate, cost_of_collect, cost_of_count, estimate_set, exceeds_cost,
    max_parts, use_threads,
};
use super::run::{self, Cuts};
use crate::derived::hibitset_base::bulk::count::count_walk;
use crate::derived::hibitset_base::bulk::fold::{fold_members, fold_walk, visit_walk};
use crate::derived::hibitset_base::bulk::list::list_walk;
use crate::derived::hibitset_base::like::BitSetLike;
use crate::derived::hibitset_base::util::{Index, LAYERS};
use crate::support::rattle_std::alloc::{AllocError, Global};
use crate::support::rattle_std::fmt::Debug;
use crate::support::rattle_std::thread::Threads;

// From how many members on a walk takes threads, unless `with_min_len` says otherwise: fewer are gone over before
// threads have started, if each takes less than some ten nanoseconds, and what takes longer is worth a thread.
const MIN_LEN: usize = 4_096;

/// A walk over a set, which several threads make in parts: `BitParIter` of the original, where it is a
/// `ParallelIterator`.
///
/// Each call starts threads anew: with the calling one there is one for each processor. Small sets are walked in the
/// calling thread, as any set is on one processor; [`with_min_len`](BitParIter::with_min_len) moves that threshold
/// (docs/COSTS.md has the numbers). The result is the same.
///
/// Each call takes the handle that starts threads, and an allocator for the parts and what is collected. It fails only
/// if an allocation fails.
#[derive(Debug)]
pub struct BitParIter<T> {
    pub(crate) set: T,
    pub(crate) layers: u8,
    pub(crate) min_len: usize,
}

impl<T> BitParIter<T> {
    /// A walk over `set` in parts, which are cut in all layers but the lowest.
    ///
    /// # Contract
    ///
    /// ```text
    /// ensures set { par_set result ≡ set }
    /// ensures layers { par_layers result ≡ LAYERS - 1 }
    /// ```
    pub fn new(set: T) -> Self {
        BitParIter {
            set,
            layers: LAYERS as u8 - 1,
            min_len: MIN_LEN,
        }
    }

    /// The same, cut in the `layers` uppermost layers alone, 1 to 4: `layers_split` of the original. With fewer layers
    /// there are fewer parts: each has whole ranges of 16,777,216, 262,144, 4,096 or 64 indices.
    ///
    /// # Contract
    ///
    /// ```text
    /// requires nonzero { 0 < layers }
    /// requires fits { layers < LAYERS }
    /// ensures set { par_set result ≡ par_set self }
    /// ensures members { (holds : T → ℕ → Bool)
    ///     → par_members holds result ≡ par_members holds self }
    /// ensures layers { par_layers result ≡ layers }
    /// ```
    pub fn layers_split(self, layers: u8) -> Self {
        BitParIter {
            set: self.set,
            layers,
            min_len: self.min_len,
        }
    }

    /// The same, but each call takes threads only for a set that seems to have at least `members`, instead of 4,096.
    /// For closures that do little: 500,000 serves one that adds.
    ///
    /// ```text
    /// let pages = (&set).par_iter().with_min_len(500_000).count(&rt, alloc)?;
    /// ```
    ///
    /// # Contract
    ///
    /// ```text
    /// ensures set { par_set result ≡ par_set self }
    /// ensures members { (holds : T → ℕ → Bool)
    ///     → par_members holds result ≡ par_members holds self }
    /// ensures layers { par_layers result ≡ par_layers self }
    /// ```
    pub fn with_min_len(self, members: usize) -> Self {
        BitParIter {
            set: self.set,
            layers: self.layers,
            min_len: members,
        }
    }
}

impl<T: BitSetLike + Send + Sync> BitParIter<T> {
    // Where the walk over a set of this size is cut, for a call that does such work.
    fn cuts(&self, size: Estimate, work: CostModel) -> Cuts {
        let BitParIter { layers, .. } = self;
        Cuts {
            layers: *layers,
            max_parts: max_parts(size, work),
        }
    }

    /// How many members there are below `MAX_EID`. It fails only if an allocation fails.
    ///
    /// # Contract
    ///
    /// ```text
    /// ensures { IfOk result (λ n. n ≡ length (par_members T.holds self)) }
    /// ```
    pub(crate) fn count(self, rt: &(impl Threads + Sync), alloc: Global) -> Result<usize, AllocError> {
        let work = cost_of_count(&self.set);
        let size = estimate_set(&self.set, work, self.min_len);
        if !use_threads(rt, size, work, self.min_len) {
            return Ok(count_walk(&self.set.iter()));
        }
        run::count(rt, alloc, (&self.set).iter(), self.cuts(size, work))
    }

    /// The members below `MAX_EID`, in ascending order. It fails only if an allocation fails.
    ///
    /// # Contract
    ///
    /// ```text
    /// ensures { IfOk result (λ v. v.items ≡ par_members T.holds self) }
    /// ```
    pub(crate) fn collect(
        self,
        rt: &(impl Threads + Sync),
        alloc: Global,
    ) -> Result<Vec<Index>, AllocError> {
        let to_count = cost_of_count(&self.set);
        let to_collect = cost_of_collect(&self.set);
        let size = estimate_set(&self.set, to_count, self.min_len);
        if !use_threads(rt, size, to_collect, self.min_len) {
            return list_walk(self.set.iter(), alloc);
        }
        run::collect(
            rt,
            alloc,
            (&self.set).iter(),
            self.cuts(size, to_collect),
            exceeds_cost(size, to_count),
        )
    }

    /// Calls `f` at each member below `MAX_EID`, in any order, from several threads. What `f` does is in no clause.
    ///
    /// # Contract
    ///
    /// ```text
    /// requires { F.IsAlwaysCallable f }
    /// ```
    pub(crate) fn for_each<F: Fn(Index) + Sync>(
        self,
        rt: &(impl Threads + Sync),
        alloc: Global,
        f: F,
    ) -> Result<(), AllocError> {
        let size = estimate_set(&self.set, CALL_COST, self.min_len);
        if !use_threads(rt, size, CALL_COST, self.min_len) {
            visit_walk(self.set.iter(), &f);
            return Ok(());
        }
        run::for_each(rt, alloc, (&self.set).iter(), self.cuts(size, CALL_COST), f)
    }

    /// Folds consecutive pieces of the ascending list of members, each from `init()`, and combines the results from
    /// left to right. A piece may be empty. Where the list is cut is in no clause.
    ///
    /// # Contract
    ///
    /// ```text
    /// requires init { I.IsAlwaysCallable init }
    /// requires step { F.IsAlwaysCallable step }
    /// requires combine { C.IsAlwaysCallable combine }
    /// ensures { IfOk result (FoldsInParts (I.post init) (λ a x b. F.post step a x b)
    ///     (λ a b c. C.post combine a b c) (par_members T.holds self)) }
    /// ```
    pub(crate) fn fold<R: Send, I: Fn() -> R + Sync, F: Fn(R, Index) -> R + Sync, C: Fn(R, R) -> R>(
        self,
        rt: &(impl Threads + Sync),
        alloc: Global,
        init: I,
        step: F,
        combine: C,
    ) -> Result<R, AllocError> {
        let size = estimate_set(&self.set, CALL_COST, self.min_len);
        if use_threads(rt, size, CALL_COST, self.min_len) {
            return run::fold(
                rt,
                alloc,
                (&self.set).iter(),
                self.cuts(size, CALL_COST),
                init,
                step,
                combine,
            );
        }
        if size.is_sparse() {
            return Ok(fold_members(&self.set, init(), &step));
        }
        Ok(fold_walk(self.set.iter(), init(), &step))
    }
}
