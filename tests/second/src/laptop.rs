//! The laptop end (01, "The laptop end", and 02, R-4 and R-5): of each side it asks, gathers a candidate and
//! holds a catalogue. One wait is shared by the two.

mod answers;
mod owner;
mod side_state;
mod timers;

use crate::catalogue::{Catalogue, RUN_WORDS};
use crate::edition::Edition;
use crate::messages::{Message, Request};
use crate::refusals::{NOT_HELD, SHORT_RUN};
use crate::side::{Side, Sides};
use side_state::SideState;
use std::collections::BTreeMap;

pub const MOST_PAGES: usize = 200;

#[derive(Clone, Debug, Default, PartialEq, Eq)]
pub struct Laptop {
    awaited: Option<Awaited>,
    states: Sides<SideState>,
}

/// The request whose answer is awaited, and the side from which it is.
#[derive(Clone, Copy, Debug, PartialEq, Eq)]
pub struct Awaited {
    pub side: Side,
    pub request: Request,
}

#[derive(Clone, Debug, Default, PartialEq, Eq)]
pub enum Candidate {
    #[default]
    None,
    ListOpen(Catalogue),
    /// The list is done and modes are missing.
    ListDone(Catalogue),
}

/// The runs of mode words of one side, lent by the caller.
#[derive(Debug)]
pub struct Runs<'run> {
    pub held: &'run mut [u32],
    pub candidate: &'run mut [u32],
}

/// What an accepted call leads to.
#[derive(Clone, Copy, Debug, Default, PartialEq, Eq)]
pub struct Accepted {
    /// The number of bytes to send, 0 if none.
    pub length: usize,
    /// What policy is told, if anything.
    pub told: Option<Told>,
}

/// Of a side; after a timer or a protocol error, of the one that waited.
#[derive(Clone, Copy, Debug, PartialEq, Eq)]
pub enum Told {
    Attention {
        side: Side,
        message: Message,
    },
    /// An enter or exit came to nothing.
    Unmarked {
        side: Side,
        request: Request,
        reason: Reason,
    },
}

#[derive(Clone, Copy, Debug, PartialEq, Eq)]
pub enum Reason {
    Nak,
    Busy,
    Timer,
    ProtocolError,
}

/// What was accepted, or the refusal.
pub type Answer = Result<Accepted, u8>;

impl Runs<'_> {
    fn check(&self) -> Result<(), u8> {
        check_run(self.held)?;
        check_run(self.candidate)
    }
}

impl Accepted {
    fn telling(told: Told) -> Self {
        Accepted {
            length: 0,
            told: Some(told),
        }
    }
}

impl Laptop {
    /// A laptop that awaits nothing, and of each side gathers and holds nothing.
    pub fn fresh() -> Self {
        Laptop::default()
    }

    pub fn awaited(&self) -> Option<Awaited> {
        self.awaited
    }

    /// The request whose answer is awaited from this side.
    pub fn awaited_from(&self, side: Side) -> Option<Request> {
        let awaited = self.awaited.filter(|awaited| awaited.side == side);
        awaited.map(|awaited| awaited.request)
    }

    pub fn candidate(&self, side: Side) -> &Candidate {
        &self.states[side].candidate
    }

    pub fn held(&self, side: Side) -> Option<&Catalogue> {
        self.states[side].held.as_ref()
    }

    pub fn page_count(&self, side: Side) -> usize {
        self.states[side].page_count
    }

    /// The edition at which the side's requests are sent; Identity is sent at ours.
    pub fn edition(&self, side: Side) -> Edition {
        self.states[side].edition
    }

    /// The set of entered positions of each SVID that has had one.
    pub fn entered(&self, side: Side) -> &BTreeMap<u16, u8> {
        &self.states[side].entered
    }

    /// The report: how many modes of the SVID are entered.
    pub fn entered_count(&self, side: Side, svid: u16) -> u32 {
        self.states[side].entered_set(svid).count_ones()
    }

    /// Writes the side's held catalogue's bytes at the start of `out` and gives their number, or
    /// refuses with 11 for a short run, then 12, then 11 for a short buffer.
    pub fn write_catalogue(
        &self,
        side: Side,
        held_run: &[u32],
        out: &mut [u8],
    ) -> Result<usize, u8> {
        check_run(held_run)?;
        match self.held(side) {
            Some(held) => held.write(held_run, out),
            None => Err(NOT_HELD),
        }
    }
}

fn check_run(run: &[u32]) -> Result<(), u8> {
    if run.len() < RUN_WORDS {
        return Err(SHORT_RUN);
    }
    Ok(())
}
