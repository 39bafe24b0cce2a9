// Derived from crates/hibitset_atomic/src/tests.rt by rust/derive.py, and never edited by hand.

//! The memory that a set takes, which only its private fields tell. All other tests are in `hibitset_atomic_tests`.

use crate::support::rattle_std::prelude::*;

use crate::derived::hibitset_atomic::AtomicBitSet;
use crate::support::rattle_std::test::Fail;

// 64 words of layer 2, 4,096 of layer 1 and two blocks of 64, of 8 bytes each, and 4,096 places of 2 bytes.
#[test]
fn bytes_of_one_member() -> Result<(), Fail> {
    let rt = crate::support::rattle_std::rt::host();
    let mut set = AtomicBitSet::new(rt.alloc())?;
    set.add(5)?;
    let layers = &set.layers;
    assert_eq!(rt;
        (layers.layer2.capacity(), layers.layer1.capacity()),
        (64, 4_096)
    );
    let blocks = &layers.layer0;
    assert_eq!(rt;
        (blocks.words.capacity(), blocks.places.capacity()),
        (128, 4_096)
    );
    Ok(())
}
