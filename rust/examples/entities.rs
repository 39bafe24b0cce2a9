//! An entity store: a mask for each component, and systems that visit the entities that have what they need.
//!
//! ```sh
//! cargo run --example entities
//! ```

use hibitset::{BitSet, BitSetLike, BitSetLikeExt, Index};

/// A component of each entity that its mask has.
struct Component<T> {
    mask: BitSet,
    values: Vec<T>,
}

impl<T: Clone + Default> Component<T> {
    fn new() -> Component<T> {
        Component {
            mask: BitSet::new(),
            values: Vec::new(),
        }
    }

    fn insert(&mut self, entity: Index, value: T) {
        let position = entity as usize;
        if self.values.len() <= position {
            self.values.resize(position + 1, T::default());
        }
        self.values[position] = value;
        self.mask.add(entity);
    }
}

struct World {
    alive: BitSet,
    dead: BitSet,
    positions: Component<f32>,
    speeds: Component<f32>,
    frozen: BitSet,
}

impl World {
    fn new() -> World {
        World {
            alive: BitSet::new(),
            dead: BitSet::new(),
            positions: Component::new(),
            speeds: Component::new(),
            frozen: BitSet::new(),
        }
    }

    /// Makes an entity of the least number that is free.
    fn create(&mut self) -> Index {
        let entity = self
            .alive
            .first_gap(0)
            .expect("fewer entities than a set has indices");
        self.alive.add(entity);
        entity
    }

    /// Moves what has a position and a speed and is not frozen. The iteration skips all others, 64 at a time and more.
    fn step(&mut self, seconds: f32) -> usize {
        let mut moved = 0;
        for entity in &self.positions.mask & &self.speeds.mask & !&self.frozen {
            self.positions.values[entity as usize] += seconds * self.speeds.values[entity as usize];
            moved += 1;
        }
        moved
    }

    /// Marks what has left the field.
    fn find_dead(&mut self) {
        for entity in &self.positions.mask {
            if self.positions.values[entity as usize] > 1_000.0 {
                self.dead.add(entity);
            }
        }
    }

    /// Takes the dead out of every mask, whole words at a time.
    fn bury(&mut self) -> usize {
        let masks = [
            &mut self.alive,
            &mut self.positions.mask,
            &mut self.speeds.mask,
            &mut self.frozen,
        ];
        for mask in masks {
            *mask -= &self.dead;
        }
        self.dead.drain().count()
    }
}

fn main() {
    let mut world = World::new();
    for i in 0..10_000u16 {
        let entity = world.create();
        world.positions.insert(entity, f32::from(i) / 10.0);
        if i % 3 == 0 {
            world.speeds.insert(entity, 1.0);
        }
        if i % 5 == 0 {
            world.frozen.add(entity);
        }
    }
    println!(
        "{} entities, {} of them move",
        world.alive.len(),
        world.step(5.0)
    );
    println!(
        "{} are still: {:?} ..",
        still(&world).len(),
        &still(&world).to_vec()[..5]
    );

    world.find_dead();
    println!("{} have left the field", world.bury());
    println!(
        "{} are left, and the next one is number {}",
        world.alive.len(),
        world.create()
    );
    assert!(world.positions.mask.is_subset(&world.alive));
}

/// The entities that have a position and don't move. It is a set like any other, made on demand.
fn still(world: &World) -> impl BitSetLike + '_ {
    &world.positions.mask & (!&world.speeds.mask | &world.frozen)
}
