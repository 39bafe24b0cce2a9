//! An entity store in the way of `specs`, with names of the crate `hibitset` 0.6.3 alone: it compiles with that crate too.

use std::collections::BTreeMap;
use std::sync::atomic::{AtomicU32, Ordering};
use std::thread;

use hibitset::{
    AtomicBitSet, BitIter, BitSet, BitSetAll, BitSetAnd, BitSetLike, BitSetNot, BitSetOr,
    DrainableBitSet,
};

type Entity = u32;

/// Which entities there are. Threads create and delete by `&`; `maintain` takes it over.
#[derive(Default)]
struct Allocator {
    alive: BitSet,
    raised: AtomicBitSet,
    killed: AtomicBitSet,
    next: AtomicU32,
}

impl Allocator {
    fn create(&self) -> Entity {
        let entity = self.next.fetch_add(1, Ordering::Relaxed);
        assert!(!self.raised.add_atomic(entity));
        entity
    }

    fn delete(&self, entity: Entity) -> bool {
        self.is_alive(entity) && !self.killed.add_atomic(entity)
    }

    fn is_alive(&self, entity: Entity) -> bool {
        self.alive.contains(entity) || self.raised.contains(entity)
    }

    fn mask(&self) -> BitSetOr<&BitSet, &AtomicBitSet> {
        BitSetOr(&self.alive, &self.raised)
    }

    /// Returns the deleted ones.
    fn maintain(&mut self) -> Vec<Entity> {
        for entity in (&self.raised).iter() {
            self.alive.add(entity);
        }
        self.raised.clear();
        let deleted: Vec<Entity> = (&self.killed).iter().collect();
        for &entity in &deleted {
            self.alive.remove(entity);
        }
        self.killed.clear();
        deleted
    }
}

/// The components of one type.
struct Storage<T> {
    mask: BitSet,
    values: Vec<Option<T>>,
}

impl<T> Default for Storage<T> {
    fn default() -> Storage<T> {
        Storage {
            mask: BitSet::new(),
            values: Vec::new(),
        }
    }
}

impl<T> Storage<T> {
    fn insert(&mut self, entity: Entity, value: T) -> Option<T> {
        let position = entity as usize;
        if self.values.len() <= position {
            self.values.resize_with(position + 1, || None);
        }
        self.mask.add(entity);
        self.values[position].replace(value)
    }

    fn remove(&mut self, entity: Entity) -> Option<T> {
        if self.mask.remove(entity) {
            self.values[entity as usize].take()
        } else {
            None
        }
    }

    fn drain(&mut self) -> impl Iterator<Item = (Entity, T)> + '_ {
        let values = &mut self.values;
        self.mask.drain().map(move |entity| {
            (
                entity,
                values[entity as usize].take().expect("the mask has it"),
            )
        })
    }
}

/// What can be joined: a mask, and a value for each of its indices.
pub trait Join {
    type Item;
    type Mask: BitSetLike;
    type Values;

    fn open(self) -> (Self::Mask, Self::Values);

    fn get(values: &Self::Values, entity: Entity) -> Self::Item;

    fn join(self) -> JoinIter<Self>
    where
        Self: Sized,
    {
        let (mask, values) = self.open();
        JoinIter {
            keys: mask.iter(),
            values,
        }
    }
}

pub struct JoinIter<J: Join> {
    keys: BitIter<J::Mask>,
    values: J::Values,
}

impl<J: Join> Iterator for JoinIter<J> {
    type Item = J::Item;

    fn next(&mut self) -> Option<J::Item> {
        self.keys.next().map(|entity| J::get(&self.values, entity))
    }
}

impl<'a, T> Join for &'a Storage<T> {
    type Item = &'a T;
    type Mask = &'a BitSet;
    type Values = &'a [Option<T>];

    fn open(self) -> (&'a BitSet, &'a [Option<T>]) {
        (&self.mask, &self.values)
    }

    fn get(values: &&'a [Option<T>], entity: Entity) -> &'a T {
        values[entity as usize].as_ref().expect("the mask has it")
    }
}

impl<'a> Join for &'a Allocator {
    type Item = Entity;
    type Mask = BitSetOr<&'a BitSet, &'a AtomicBitSet>;
    type Values = ();

    fn open(self) -> (Self::Mask, ()) {
        (self.mask(), ())
    }

    fn get(_: &(), entity: Entity) -> Entity {
        entity
    }
}

/// All entities without a component.
struct Not<'a, T>(&'a Storage<T>);

impl<'a, T> Join for Not<'a, T> {
    type Item = ();
    type Mask = BitSetNot<&'a BitSet>;
    type Values = ();

    fn open(self) -> (Self::Mask, ()) {
        (!&self.0.mask, ())
    }

    fn get(_: &(), _: Entity) {}
}

/// A component where there is one.
struct Maybe<'a, T>(&'a Storage<T>);

impl<'a, T> Join for Maybe<'a, T> {
    type Item = Option<&'a T>;
    type Mask = BitSetAll;
    type Values = &'a Storage<T>;

    fn open(self) -> (BitSetAll, &'a Storage<T>) {
        (BitSetAll, self.0)
    }

    fn get(storage: &&'a Storage<T>, entity: Entity) -> Option<&'a T> {
        storage
            .mask
            .contains(entity)
            .then(|| <&Storage<T>>::get(&&storage.values[..], entity))
    }
}

macro_rules! join_tuple {
    ($first:ident $($other:ident)+) => {
        join_tuple! { @ $first $($other)+ }
    };
    (@ $a:ident $b:ident) => {
        impl<$a: Join, $b: Join> Join for ($a, $b) {
            type Item = ($a::Item, $b::Item);
            type Mask = BitSetAnd<$a::Mask, $b::Mask>;
            type Values = ($a::Values, $b::Values);

            fn open(self) -> (Self::Mask, Self::Values) {
                let ((a, x), (b, y)) = (self.0.open(), self.1.open());
                (BitSetAnd(a, b), (x, y))
            }

            fn get(values: &Self::Values, entity: Entity) -> Self::Item {
                ($a::get(&values.0, entity), $b::get(&values.1, entity))
            }
        }
    };
    (@ $a:ident $b:ident $c:ident) => {
        impl<$a: Join, $b: Join, $c: Join> Join for ($a, $b, $c) {
            type Item = ($a::Item, $b::Item, $c::Item);
            type Mask = BitSetAnd<$a::Mask, BitSetAnd<$b::Mask, $c::Mask>>;
            type Values = ($a::Values, $b::Values, $c::Values);

            fn open(self) -> (Self::Mask, Self::Values) {
                let ((a, x), (b, y), (c, z)) = (self.0.open(), self.1.open(), self.2.open());
                (BitSetAnd(a, BitSetAnd(b, c)), (x, y, z))
            }

            fn get(values: &Self::Values, entity: Entity) -> Self::Item {
                ($a::get(&values.0, entity), $b::get(&values.1, entity), $c::get(&values.2, entity))
            }
        }
    };
}

join_tuple! { A B }
join_tuple! { A B C }

#[cfg(feature = "parallel")]
mod parallel {
    use super::{Entity, Join};
    use hibitset::{BitProducer, BitSetLike};
    use rayon::iter::plumbing::{bridge_unindexed, Folder, UnindexedConsumer, UnindexedProducer};
    use rayon::iter::ParallelIterator;

    /// A join in parts.
    pub struct JoinParIter<J>(pub J);

    struct Producer<'a, J: Join>
    where
        J::Mask: Send + Sync + 'a,
    {
        keys: BitProducer<'a, J::Mask>,
        values: &'a J::Values,
    }

    impl<J> ParallelIterator for JoinParIter<J>
    where
        J: Join + Send,
        J::Item: Send,
        J::Mask: Send + Sync,
        J::Values: Sync,
    {
        type Item = J::Item;

        fn drive_unindexed<C: UnindexedConsumer<J::Item>>(self, consumer: C) -> C::Result {
            let (mask, values) = self.0.open();
            // Split by three layers.
            let keys = BitProducer((&mask).iter(), 3);
            bridge_unindexed(
                Producer::<J> {
                    keys,
                    values: &values,
                },
                consumer,
            )
        }
    }

    impl<'a, J: Join> UnindexedProducer for Producer<'a, J>
    where
        J::Item: Send,
        J::Mask: Send + Sync,
        J::Values: Sync,
    {
        type Item = J::Item;

        fn split(self) -> (Self, Option<Self>) {
            let (first, second) = self.keys.split();
            let with = |keys| Producer {
                keys,
                values: self.values,
            };
            (with(first), second.map(with))
        }

        fn fold_with<F: Folder<J::Item>>(self, folder: F) -> F {
            let Producer { keys, values } = self;
            folder.consume_iter(keys.0.map(|entity: Entity| J::get(values, entity)))
        }
    }
}

#[derive(Default)]
struct World {
    entities: Allocator,
    positions: Storage<i64>,
    speeds: Storage<i64>,
    frozen: Storage<()>,
}

/// The same world by std's maps.
type Model = BTreeMap<Entity, (Option<i64>, Option<i64>, bool)>;

/// Four threads create entities; then each third has a speed, and each fifth is frozen.
fn world_of(count: u32) -> (World, Model) {
    let mut world = World::default();
    let entities = &world.entities;
    let mut created: Vec<Entity> = thread::scope(|scope| {
        let creators: Vec<_> = (0..4)
            .map(|_| {
                scope.spawn(move || {
                    (0..count / 4)
                        .map(|_| entities.create())
                        .collect::<Vec<_>>()
                })
            })
            .collect();
        creators
            .into_iter()
            .flat_map(|creator| creator.join().expect("the thread ended"))
            .collect()
    });
    created.sort_unstable();
    assert!((&world.entities).join().eq(created.iter().copied()));
    let mut model = Model::new();
    for entity in created {
        let parts = (
            Some(i64::from(entity)),
            (entity % 3 == 0).then_some(7),
            entity % 5 == 0,
        );
        world.positions.insert(entity, i64::from(entity));
        if let Some(speed) = parts.1 {
            world.speeds.insert(entity, speed);
        }
        if parts.2 {
            world.frozen.insert(entity, ());
        }
        model.insert(entity, parts);
    }
    (world, model)
}

fn assert_joins(world: &World, model: &Model) {
    let World {
        entities,
        positions,
        speeds,
        frozen,
    } = world;
    let moving = model
        .iter()
        .filter_map(|(&entity, &(position, speed, _))| Some((entity, position?, speed?)));
    assert!((entities, positions, speeds)
        .join()
        .map(|(entity, &p, &s)| (entity, p, s))
        .eq(moving));
    let free = model
        .iter()
        .filter(|(_, parts)| parts.1.is_some() && !parts.2)
        .map(|(&entity, _)| entity);
    assert!((entities, speeds, Not(frozen))
        .join()
        .map(|(entity, ..)| entity)
        .eq(free));
    let speed_of = model.iter().map(|(&entity, parts)| (entity, parts.1));
    assert!((entities, Maybe(speeds))
        .join()
        .map(|(entity, speed)| (entity, speed.copied()))
        .eq(speed_of));
}

#[test]
fn systems_join_what_they_need() {
    let (mut world, mut model) = world_of(12_000);
    assert_joins(&world, &model);
    assert!(world.entities.maintain().is_empty());
    assert_joins(&world, &model);
    // Entities are created and deleted meanwhile, and gone for good after `maintain`.
    for entity in (0..12_000).step_by(7) {
        assert!(world.entities.delete(entity) && !world.entities.delete(entity));
        model.remove(&entity);
    }
    let new = world.entities.create();
    assert!(world.entities.is_alive(new) && !world.entities.delete(99_999));
    model.insert(new, (None, None, false));
    for entity in world.entities.maintain() {
        world.positions.remove(entity);
        world.speeds.remove(entity);
        world.frozen.remove(entity);
    }
    assert_joins(&world, &model);
    let drained = world
        .speeds
        .drain()
        .map(|(entity, _)| entity)
        .collect::<Vec<_>>();
    let had = model
        .iter_mut()
        .filter_map(|(&entity, parts)| parts.1.take().map(|_| entity));
    assert_eq!(drained, had.collect::<Vec<_>>());
    assert_joins(&world, &model);
}

#[cfg(feature = "parallel")]
#[test]
fn a_join_in_parts_has_the_same_items() {
    use parallel::JoinParIter;
    use rayon::iter::ParallelIterator;

    let (world, _) = world_of(40_000);
    let World {
        entities,
        positions,
        speeds,
        frozen,
    } = &world;
    let expected: Vec<_> = (entities, (positions, speeds), Not(frozen))
        .join()
        .collect();
    let mut items: Vec<_> = JoinParIter((entities, (positions, speeds), Not(frozen))).collect();
    items.sort_unstable();
    assert!(items == expected && items.len() > 10_000);
    // Parts may mark entities, each once.
    let marked = AtomicBitSet::new();
    JoinParIter((entities, speeds)).for_each(|(entity, _)| assert!(!marked.add_atomic(entity)));
    assert!((&marked).iter().eq(&speeds.mask));
    let sum: i64 = (&speeds.mask).par_iter().map(i64::from).sum();
    assert_eq!(sum, (&marked).iter().map(i64::from).sum());
}

#[test]
fn masks_are_combined_in_place() {
    let (mut world, _) = world_of(1_000);
    let mut dirty = world.speeds.mask.clone();
    dirty |= &world.frozen.mask;
    assert_eq!(
        dirty,
        (0..1_000).filter(|i| i % 3 == 0 || i % 5 == 0).collect()
    );
    dirty &= &BitSetNot(&world.frozen.mask);
    assert_eq!(
        dirty,
        (0..1_000).filter(|i| i % 3 == 0 && i % 5 != 0).collect()
    );
    dirty ^= &world.speeds.mask;
    assert_eq!(dirty, (0..1_000).filter(|i| i % 15 == 0).collect());
    assert!(world.frozen.mask.contains_set(&dirty));
    fn take_all<B: DrainableBitSet>(mut mask: B) -> usize {
        mask.drain().count()
    }
    assert_eq!(take_all(&mut world.positions.mask), 1_000);
    assert!(world.positions.mask.is_empty());
}
