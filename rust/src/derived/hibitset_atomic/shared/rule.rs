// Derived from crates/hibitset_atomic/src/shared/rule.rt by rust/derive.py, and never edited by hand.

//! The rule that each step keeps, and what each step tells.

use crate::support::rattle_std::prelude::*;

use crate::derived::hibitset_atomic::shared::view::View;
use crate::support::atomic_table::{Join, Play, Split, TableRule};
use crate::support::rattle_std::snapshot::Snapshot;

/// The key is the words as they were at first.
pub struct FourLayers;

impl TableRule<(), View, Snapshot<Vec<u64>>> for FourLayers {
}

pub struct FetchOrLayer0;

impl Play<(), View> for FetchOrLayer0 {
}

pub struct FetchOrSummary;

impl Play<(), View> for FetchOrSummary {
}

pub struct Load;

impl Play<(), View> for Load {
}

pub struct SplitSeat;

impl Split<View> for SplitSeat {
}

pub struct JoinSeats;

impl Join<View> for JoinSeats {
}
