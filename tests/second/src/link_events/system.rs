//! A laptop with two sides, and for each side a link and a fair far end, driven by events. An event
//! that is not permitted changes nothing.

mod begin;

use super::link::Heard;
use super::{Event, FarEnd, LinkEvent};
use crate::call::Call;
use crate::catalogue::MOST_CATALOGUE_BYTES;
use crate::dock::PolicyAnswer;
use crate::laptop::{Awaited, Candidate, Laptop};
use crate::lent_runs::LentRuns;
use crate::messages::OBJECT_BYTES;
use crate::refusals::NOT_TAKEN_NOW;
use crate::side::{Side, Sides};

#[derive(Clone, Debug, PartialEq, Eq)]
pub struct System {
    laptop: Laptop,
    runs: Sides<LentRuns>,
    far_ends: Sides<FarEnd>,
}

/// What an event led to.
#[derive(Clone, Copy, Debug, PartialEq, Eq)]
pub struct Outcome {
    pub permitted: bool,
    /// The refusal number of the call that it made, if it made one.
    pub refusal: Option<u8>,
}

impl System {
    pub fn laptop(&self) -> &Laptop {
        &self.laptop
    }

    pub fn runs(&self, side: Side) -> &LentRuns {
        &self.runs[side]
    }

    pub fn far_end(&self, side: Side) -> &FarEnd {
        &self.far_ends[side]
    }

    /// The bytes of the side's held catalogue.
    pub fn held_bytes(&self, side: Side) -> Option<Vec<u8>> {
        let mut bytes = [0; MOST_CATALOGUE_BYTES];
        let held = &self.runs[side].held;
        let length = self.laptop.write_catalogue(side, held, &mut bytes).ok()?;
        Some(bytes[..length].to_vec())
    }

    pub fn has_candidate(&self, side: Side) -> bool {
        *self.laptop.candidate(side) != Candidate::None
    }

    /// The side from which an answer is awaited.
    pub fn waiting(&self) -> Option<Side> {
        self.laptop.awaited().map(|awaited| awaited.side)
    }

    /// The side that an event concerns. A timer or protocol error concerns the one that waits, and
    /// counts as the partner's if none does.
    pub fn side_of(&self, event: &Event) -> Side {
        let said = match event {
            Event::Call(call) => call.side(),
            Event::Timer => None,
            Event::On(side, _) => Some(*side),
        };
        said.or(self.waiting()).unwrap_or(Side::Partner)
    }

    pub fn permits(&self, event: &Event) -> bool {
        match *event {
            Event::Call(_) => true,
            Event::Timer => self.waiting().is_some(),
            Event::On(side, event) => self.far_ends[side].permits(event),
        }
    }

    pub fn take(&mut self, event: &Event) -> Outcome {
        let permitted = self.permits(event);
        Outcome {
            permitted,
            refusal: permitted.then(|| self.happen(event)).flatten(),
        }
    }

    /// The refusal of the call that the event makes, if it makes one.
    fn happen(&mut self, event: &Event) -> Option<u8> {
        let side = self.side_of(event);
        let result = match *event {
            Event::Call(call) => self.call(side, call),
            Event::Timer => self.timer(),
            Event::On(_, event) => return self.happen_on(side, event),
        };
        Some(result.err().unwrap_or_default())
    }

    fn happen_on(&mut self, side: Side, event: LinkEvent) -> Option<u8> {
        let far_end = &mut self.far_ends[side];
        let result = match event {
            LinkEvent::RequestReaches => far_end.reach(),
            LinkEvent::RequestLost => {
                far_end.link.request_lost();
                return None;
            }
            LinkEvent::Give => far_end.policy(PolicyAnswer::Give),
            LinkEvent::Busy => far_end.policy(PolicyAnswer::Busy),
            LinkEvent::AnswerArrives => self.arrive(side),
            LinkEvent::AnswerLost => {
                far_end.link.answer_lost();
                return None;
            }
            LinkEvent::Sent => far_end.hear(Heard::Sent),
            LinkEvent::Failed => far_end.hear(Heard::Failed),
        };
        Some(result.err().unwrap_or_default())
    }

    fn call(&mut self, side: Side, call: Call) -> Result<(), u8> {
        let mut out = [0; OBJECT_BYTES];
        let runs = &mut self.runs[side].whole();
        let accepted = call.make(&mut self.laptop, runs, &mut out)?;
        if accepted.length > 0 {
            self.far_ends[side].link.request_sent(&out);
        }
        self.lose_request_without_wait(side);
        Ok(())
    }

    fn timer(&mut self) -> Result<(), u8> {
        let Awaited { side, request } = self.laptop.awaited().ok_or(NOT_TAKEN_NOW)?;
        self.call(side, Call::timer(request.command))
    }

    fn arrive(&mut self, side: Side) -> Result<(), u8> {
        let answer = self.far_ends[side].link().answer();
        let bytes = answer.ok_or(NOT_TAKEN_NOW)?.to_vec();
        let pages = self.laptop.page_count(side);
        let had_candidate = self.has_candidate(side);
        let runs = &mut self.runs[side].whole();
        let answer = self.laptop.message(side, &bytes, runs);
        let is_counted = self.laptop.page_count(side) > pages;
        let opens_list = self.has_candidate(side) && !had_candidate;
        self.far_ends[side].answer_arrived(is_counted, opens_list);
        self.lose_request_without_wait(side);
        answer.map(|_| ())
    }

    /// A request not yet at the far end when its side's wait ends is lost.
    fn lose_request_without_wait(&mut self, side: Side) {
        if self.laptop.awaited_from(side).is_none() {
            self.far_ends[side].link.request_lost();
        }
    }
}
