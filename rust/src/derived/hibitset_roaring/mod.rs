// Derived from crates/hibitset_roaring/src/lib.rt by rust/derive.py, and never edited by hand.

//! Sets in the portable Roaring format, which many libraries and programs read and write.

use crate::support::rattle_std::prelude::*;

mod array;
mod decode;
mod decode_container;
mod encode;
mod encode_container;
mod encode_like;
mod error;
mod from_reader;
mod header;
mod key_counts;
pub mod laws;
mod layout;
mod nonzero_words;
mod number;
mod runs;
mod sink;
mod source;
mod sparse;
mod to_writer;
mod words;

pub use decode::{read, read_below};
pub use encode::{
    len_of_words, run_optimized_len, serialized_len, write, write_run_optimized,
    write_run_optimized_to, write_to, write_words,
};
pub use encode_like::{serialized_len_like, write_like};
pub use error::{Fault, Malformed, ReadError, ReadFromError};
pub use from_reader::read_from;
pub use header::KEYS;
pub use sparse::{read_sparse, read_sparse_below, read_sparse_from};
pub use to_writer::write_into;
