//! What the laptop end has of one side: the candidate, the held catalogue, the page count, the
//! edition and the entered modes.

use super::Candidate;
use crate::catalogue::Catalogue;
use crate::edition::Edition;
use crate::messages::{LAST_MODE_POSITION, LAST_POSITION};
use std::collections::BTreeMap;

/// The set of all six positions.
const ALL_POSITIONS: u8 = (1 << LAST_MODE_POSITION) - 1;

#[derive(Clone, Debug, Default, PartialEq, Eq)]
pub struct SideState {
    pub candidate: Candidate,
    pub held: Option<Catalogue>,
    pub page_count: usize,
    /// That of the last Identity ACK since Identity went out, or ours.
    pub edition: Edition,
    /// A set bit for each entered position, by SVID.
    pub entered: BTreeMap<u16, u8>,
}

impl SideState {
    pub fn entered_set(&self, svid: u16) -> u8 {
        self.entered.get(&svid).copied().unwrap_or(0)
    }
}

/// The set of positions that an enter or exit names; position 7 is all.
pub fn named_positions(position: u8) -> u8 {
    match position {
        LAST_POSITION => ALL_POSITIONS,
        _ => 1 << (position - 1),
    }
}
