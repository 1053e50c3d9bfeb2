//! Demand 3 on one side, with its far end as the dock: what is held is the old catalogue or the
//! dock's whole one; each new answer lowers the number still needed by 1, and what is held changes
//! when it comes to 0 and then only; and the pages are as many as they must be.

use super::editions::Editions;
use super::Observed;
use crate::call::Call;
use crate::laptop::Candidate;
use crate::link_events::needed::{Arrival, Needed};
use crate::link_events::{Event, LinkEvent, Outcome};
use crate::messages::{read, IDENTITY};
use crate::pages::PAGE_SVIDS;
use crate::refusals::{ACCEPTED, NOT_WHOLE_OBJECTS, VOIDED, WRONG_SHAPE};

pub const REFUSED_UNFAIRLY: &str = "a fair message was refused 1 to 5, or 8";
pub const NEITHER_OLD_NOR_WHOLE: &str = "what is held is neither the old catalogue nor the whole";
pub const NOT_PUBLISHED: &str = "the last answer needed did not make the whole catalogue held";
pub const CHANGED_EARLY: &str = "what is held changed without the last answer needed";
pub const NOT_LOWERED: &str = "a new answer did not lower the number still needed by 1";
pub const WRONG_LIST: &str = "the list has come whole, and what is gathered is another";
pub const WRONG_SUM: &str = "the page count is not pages and confirmations lost";
pub const ENDED_UNFINISHED: &str = "a gathering ended unfinished without a reason";

pub struct SideDemand {
    old: Option<Vec<u8>>,
    whole: Vec<u8>,
    svids: Vec<u16>,
    needed: Needed,
    editions: Editions,
}

impl Observed {
    pub fn awaits_identity(&self) -> bool {
        self.awaited
            .is_some_and(|request| request.command == IDENTITY)
    }
}

impl SideDemand {
    pub fn of(first: &Observed) -> Self {
        let data = first.far_end.data();
        SideDemand {
            old: first.held.clone(),
            whole: data.catalogue_bytes(),
            svids: data.svids.clone(),
            needed: Needed::by(data),
            editions: Editions::of(&first.far_end),
        }
    }

    /// How many answers the gathering still needs.
    pub fn still_needed(&self) -> usize {
        self.needed.number()
    }

    /// The demand on an event that led from `before` to `now`, or what breaks it.
    pub fn check(
        &mut self,
        event: &Event,
        outcome: Outcome,
        before: &Observed,
        now: &Observed,
    ) -> Result<(), &'static str> {
        check_refusal(outcome)?;
        self.editions.check(event, before, now)?;
        let was_needed = self.still_needed();
        let arrival = self.receive(event, outcome, before, now);
        let is_needed = self.still_needed();
        if arrival == Arrival::New && is_needed + 1 != was_needed {
            return Err(NOT_LOWERED);
        }
        let completes = was_needed > 0 && is_needed == 0;
        self.check_held(before, now, completes)?;
        self.check_list(now)?;
        self.check_sum(now)?;
        let may_end = arrival == Arrival::Ends || is_given_up(event, outcome);
        let ended = before.has_candidate() && !now.has_candidate();
        let is_raised = is_needed > was_needed;
        if was_needed > 0 && !completes && !may_end && (is_raised || ended) {
            return Err(ENDED_UNFINISHED);
        }
        Ok(())
    }

    /// Adds what has come with the event.
    fn receive(
        &mut self,
        event: &Event,
        outcome: Outcome,
        before: &Observed,
        now: &Observed,
    ) -> Arrival {
        match event {
            Event::On(_, LinkEvent::AnswerArrives) => {
                let answer = before.answer.as_deref().and_then(|bytes| read(bytes).ok());
                answer.map_or(Arrival::Other, |message| {
                    self.needed.arrive(before.awaited, &message)
                })
            }
            Event::Call(call) if outcome.refusal == Some(ACCEPTED) => {
                let goes_out = now.awaits_identity() && before.awaited.is_none();
                if matches!(call, Call::Drop(_)) || goes_out {
                    self.needed.begin_anew();
                }
                Arrival::Other
            }
            _ => Arrival::Other,
        }
    }

    fn check_held(
        &self,
        before: &Observed,
        now: &Observed,
        completes: bool,
    ) -> Result<(), &'static str> {
        let is_whole = now.held.as_ref() == Some(&self.whole);
        if now.held != self.old && !is_whole {
            Err(NEITHER_OLD_NOR_WHOLE)
        } else if completes && !is_whole {
            Err(NOT_PUBLISHED)
        } else if !completes && now.held != before.held {
            Err(CHANGED_EARLY)
        } else {
            Ok(())
        }
    }

    /// Once the list has come whole, until all modes have.
    fn check_list(&self, now: &Observed) -> Result<(), &'static str> {
        if self.needed.is_listing() || self.still_needed() == 0 {
            return Ok(());
        }
        match &now.candidate {
            Candidate::ListDone(gathered) if gathered.svids == self.svids => Ok(()),
            _ => Err(WRONG_LIST),
        }
    }

    /// Once a list of one SVID or more has come whole, up to the next Identity.
    fn check_sum(&self, now: &Observed) -> Result<(), &'static str> {
        if self.needed.is_listing() || self.svids.is_empty() {
            return Ok(());
        }
        let pages = self.svids.len() / PAGE_SVIDS + 1 + now.confirmations_lost;
        if now.page_count != pages || self.needed.pages() != pages {
            return Err(WRONG_SUM);
        }
        Ok(())
    }
}

/// The fair dock's messages and the laptop's are sound, and nothing voids a gathering.
fn check_refusal(outcome: Outcome) -> Result<(), &'static str> {
    match outcome.refusal {
        Some(NOT_WHOLE_OBJECTS..=WRONG_SHAPE | VOIDED) => Err(REFUSED_UNFAIRLY),
        _ => Ok(()),
    }
}

/// By drop or start over.
fn is_given_up(event: &Event, outcome: Outcome) -> bool {
    let is_accepted = outcome.refusal == Some(ACCEPTED);
    is_accepted && matches!(event, Event::Call(Call::Drop(_) | Call::StartOver(_)))
}
