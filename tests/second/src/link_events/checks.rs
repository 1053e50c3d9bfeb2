//! Demand 3 on both sides (02, R-4), checked at every event: on the side that the event concerns it
//! is the demand of one side, with the rules of editions (02, R-5), and of the other side nothing
//! changes.

mod editions;
mod one_side;

use super::{Event, FarEnd, Outcome, System};
use crate::edition::Edition;
use crate::laptop::Candidate;
use crate::lent_runs::LentRuns;
use crate::messages::Request;
use crate::refusals::AWAITING;
use crate::side::{Side, Sides};
use one_side::SideDemand;
use std::collections::BTreeMap;

pub use editions::{ANSWER_AT_OTHER_EDITION, REQUEST_AT_OTHER_EDITION};
pub use one_side::{
    CHANGED_EARLY, ENDED_UNFINISHED, NEITHER_OLD_NOR_WHOLE, NOT_LOWERED, NOT_PUBLISHED,
    REFUSED_UNFAIRLY, WRONG_LIST, WRONG_SUM,
};
pub const OTHER_SIDE_CHANGED: &str = "an event of one side changed the other";
pub const CHANGED_BY_REFUSED: &str = "a call changed its side though the other waits";

/// What there is of a side, at one moment.
#[derive(Clone, Debug, PartialEq, Eq)]
pub struct Observed {
    /// The held catalogue's bytes.
    pub held: Option<Vec<u8>>,
    pub candidate: Candidate,
    pub awaited: Option<Request>,
    /// The request under way.
    pub request: Option<Vec<u8>>,
    /// The answer under way.
    pub answer: Option<Vec<u8>>,
    /// The laptop's.
    pub edition: Edition,
    pub page_count: usize,
    pub confirmations_lost: usize,
    /// A set bit for each entered position, by SVID.
    pub entered: BTreeMap<u16, u8>,
    pub runs: LentRuns,
    pub far_end: FarEnd,
}

pub struct Demand {
    sides: Sides<SideDemand>,
    last: Sides<Observed>,
}

impl Observed {
    pub fn of(system: &System, side: Side) -> Self {
        let (laptop, far_end) = (system.laptop(), system.far_end(side));
        Observed {
            held: system.held_bytes(side),
            candidate: laptop.candidate(side).clone(),
            awaited: laptop.awaited_from(side),
            request: far_end.link().request().map(<[u8]>::to_vec),
            answer: far_end.link().answer().map(<[u8]>::to_vec),
            edition: laptop.edition(side),
            page_count: laptop.page_count(side),
            confirmations_lost: far_end.confirmations_lost(),
            entered: laptop.entered(side).clone(),
            runs: system.runs(side).clone(),
            far_end: far_end.clone(),
        }
    }

    pub fn of_both(system: &System) -> Sides<Self> {
        Sides::each(|side| Self::of(system, side))
    }

    pub fn has_candidate(&self) -> bool {
        self.candidate != Candidate::None
    }
}

impl Demand {
    pub fn of(system: &System) -> Self {
        let last = Observed::of_both(system);
        Demand {
            sides: Sides::each(|side| SideDemand::of(&last[side])),
            last,
        }
    }

    /// What was last observed.
    pub fn last(&self) -> &Sides<Observed> {
        &self.last
    }

    /// How many answers the side's gathering still needs.
    pub fn still_needed(&self, side: Side) -> usize {
        self.sides[side].still_needed()
    }

    /// The demand on an event that concerns this side and led from what was last observed to `now`,
    /// or what breaks it. A call refused 7 because the other side waits is left out.
    pub fn check(
        &mut self,
        side: Side,
        event: &Event,
        outcome: Outcome,
        now: Sides<Observed>,
    ) -> Result<(), &'static str> {
        let before = std::mem::replace(&mut self.last, now);
        let (now, other) = (&self.last, side.other());
        let other_waits = before[other].awaited.is_some();
        if now[other] != before[other] {
            Err(OTHER_SIDE_CHANGED)
        } else if !other_waits || outcome.refusal != Some(AWAITING) {
            self.sides[side].check(event, outcome, &before[side], &now[side])
        } else if now[side] != before[side] {
            Err(CHANGED_BY_REFUSED)
        } else {
            Ok(())
        }
    }
}
