//! Beside the walk in parts: rayon's traits.

use crate::derived::hibitset_base::like::BitSetLike;
use crate::derived::hibitset_base::parallel::{BitParIter, BitProducer};
use crate::derived::hibitset_base::util::{Index, LAYERS};
use ::rayon::iter::plumbing::{bridge_unindexed, Folder, UnindexedConsumer, UnindexedProducer};
use ::rayon::iter::ParallelIterator;

/// How many layers the crate `hibitset` 0.6.3 cuts a walk in, at most: all but the lowest. This crate has one above them.
const MOST_CUT_LAYERS: u8 = LAYERS as u8 - 2;

/// # Panics
///
/// If the number of [`layers_split`](BitParIter::layers_split) is not 1, 2, 3 or 4.
impl<T: BitSetLike + Send + Sync> ParallelIterator for BitParIter<T> {
    type Item = Index;

    fn drive_unindexed<C: UnindexedConsumer<Index>>(self, consumer: C) -> C::Result {
        let BitParIter { set, layers, .. } = self;
        assert!(
            (1..LAYERS as u8).contains(&layers),
            "a walk is cut in 1 to {} layers, and not in {layers}",
            LAYERS - 1
        );
        bridge_unindexed(BitProducer((&set).iter(), layers - 1), consumer)
    }
}

/// A split looks at one layer more than the second field says, since the top layer of the crate `hibitset` 0.6.3 is the one
/// below this crate's. A number above 3 acts as 3.
impl<'a, T: BitSetLike + Send + Sync> UnindexedProducer for BitProducer<'a, T> {
    type Item = Index;

    fn split(self) -> (Self, Option<Self>) {
        let BitProducer(walk, layers) = self;
        let looks = layers.min(MOST_CUT_LAYERS) + 1;
        let (first, second) = BitProducer::split(BitProducer(walk, looks));
        (
            BitProducer(first.0, layers),
            second.map(|second| BitProducer(second.0, layers)),
        )
    }

    fn fold_with<F: Folder<Index>>(self, folder: F) -> F {
        folder.consume_iter(self.0)
    }
}
