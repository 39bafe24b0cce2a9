//! The derived crates, each a module: made by rust/derive.py.

pub mod hibitset;
pub mod hibitset_atomic;
pub mod hibitset_base;
pub mod hibitset_roaring;
pub mod hibitset_sparse;
pub mod hibitset_store;
