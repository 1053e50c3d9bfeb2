//! Counts what streams of link events reach, and tells what they never reach.

mod editions;
mod names;

use super::checks::{Demand, Observed};
use super::link::Link;
use super::{Event, LinkEvent, Outcome, Start, System};
use crate::call::Call;
use crate::counts::Counts;
use crate::laptop::Candidate;
use crate::messages::{read, Message, BUSY};
use crate::refusals::{ACCEPTED, AWAITING, NOT_AWAITED};
use crate::side::{Side, Sides};
use editions::{Editions, COMPLETED_APART};
use names::*;

pub use names::{all, of_one_stream};

#[derive(Default)]
pub struct Tally {
    counts: Counts,
}

/// An event, the side that it concerns, and what it led to.
struct Happened<'stream> {
    event: &'stream Event,
    side: Side,
    outcome: Outcome,
    before: &'stream Sides<Observed>,
    now: &'stream Sides<Observed>,
}

impl Happened<'_> {
    fn is_accepted(&self) -> bool {
        self.outcome.refusal == Some(ACCEPTED)
    }

    /// Whether an answer was awaited from the other side.
    fn other_waited(&self) -> bool {
        self.before[self.side.other()].awaited.is_some()
    }

    /// Whether a mode of the other side is entered.
    fn other_has_entered(&self) -> bool {
        let entered = &self.before[self.side.other()].entered;
        entered.values().any(|&set| set != 0)
    }

    fn drops_open_list(&self) -> bool {
        let was_open = matches!(self.before[self.side].candidate, Candidate::ListOpen(_));
        was_open && !self.now[self.side].has_candidate()
    }

    /// The link of the side before the event.
    fn link(&self) -> &Link {
        self.before[self.side].far_end.link()
    }

    /// The answer that was under way to the laptop.
    fn answer(&self) -> Option<Message> {
        self.link().answer().and_then(|bytes| read(bytes).ok())
    }
}

impl Tally {
    /// Counts a stream, or tells how an event of it breaks the demand.
    pub fn count_stream(&mut self, start: &Start, events: &[Event]) -> Result<(), &'static str> {
        let mut system = System::begin(start);
        let mut demand = Demand::of(&system);
        let mut editions = Editions::default();
        let mut completed = Vec::new();
        for event in events {
            let side = system.side_of(event);
            let outcome = system.take(event);
            let now = Observed::of_both(&system);
            let happened = Happened {
                event,
                side,
                outcome,
                before: demand.last(),
                now: &now,
            };
            self.count_event(&happened);
            let names = editions.names_of(&happened);
            names.into_iter().for_each(|name| self.counts.add(name));
            let was_needed = demand.still_needed(side);
            demand.check(side, event, outcome, now)?;
            if was_needed > 0 && demand.still_needed(side) == 0 {
                self.count_completed(demand.last(), side);
                completed.push(side);
            }
        }
        self.count_ended(start, &completed);
        Ok(())
    }

    /// A stream in which gatherings of these sides were completed.
    fn count_ended(&mut self, start: &Start, completed: &[Side]) {
        let highest = Sides::each(|side| start[side].highest);
        self.counts.add(STREAMS.to_string());
        self.counts.add(editions::docks(highest));
        if Side::BOTH.iter().all(|side| completed.contains(side)) {
            self.counts.add(BOTH_COMPLETED.to_string());
            if highest.partner != highest.cable {
                self.counts.add(COMPLETED_APART.to_string());
            }
        }
    }

    fn count_event(&mut self, happened: &Happened) {
        let Happened { side, outcome, .. } = *happened;
        self.counts
            .add(permission(happened.event, outcome.permitted));
        if let Some(number) = outcome.refusal {
            self.counts.add(refusal(side, number));
        }
        let [was, now] = [happened.before, happened.now].map(|sides| &sides[side]);
        if now.confirmations_lost > was.confirmations_lost {
            self.add(side, LOST_CONFIRMATION);
        }
        match happened.event {
            Event::Call(call) => self.count_call(call, happened),
            Event::Timer if happened.is_accepted() => self.add(side, TIMER_ENDED),
            Event::Timer => {}
            Event::On(_, LinkEvent::AnswerArrives) => self.count_arrival(happened),
            Event::On(_, event) => self.count_heard(*event, happened),
        }
    }

    fn count_call(&mut self, call: &Call, happened: &Happened) {
        let side = happened.side;
        if happened.outcome.refusal == Some(AWAITING) && happened.other_waited() {
            self.add(side, REFUSED_BESIDE);
        }
        if happened.is_accepted() {
            self.count_accepted(call, happened);
        }
    }

    fn count_accepted(&mut self, call: &Call, happened: &Happened) {
        let side = happened.side;
        match call {
            Call::Next(_) | Call::StartOver(_) if happened.other_has_entered() => {
                self.add(side, ASKED_BESIDE);
            }
            Call::Enter { .. } => {
                self.add(side, ENTER_SENT);
                if happened.now[side.other()].has_candidate() {
                    self.add(side, ENTERED_BESIDE);
                }
            }
            Call::Exit { .. } => self.add(side, EXIT_SENT),
            Call::ProtocolError => self.add(side, ERROR_ENDED),
            _ => {}
        }
    }

    /// The link is quiet before the first request, so what arrives with nothing awaited from its
    /// side, or while a request is still under way, is late.
    fn count_arrival(&mut self, happened: &Happened) {
        let (side, link) = (happened.side, happened.link());
        if happened.outcome.refusal == Some(NOT_AWAITED) {
            self.count_late(happened);
        }
        if !happened.is_accepted() {
            return;
        }
        if link.has_request() {
            self.add(side, LATE_TAKEN);
        }
        let answer = happened.answer();
        if answer.is_some_and(|message| message.kind == BUSY) {
            self.add(side, BUSY_TAKEN);
        }
    }

    /// An answer that is refused 6.
    fn count_late(&mut self, happened: &Happened) {
        let side = happened.side;
        if happened.other_waited() {
            self.add(side, LATE_BESIDE);
            if happened.drops_open_list() {
                self.add(side, DROPPED_BESIDE);
            }
        } else if happened.before[side].awaited.is_none() {
            self.add(side, LATE_ALONE);
        }
    }

    fn count_heard(&mut self, event: LinkEvent, happened: &Happened) {
        let side = happened.side;
        let is_first = happened.outcome.permitted && happened.link().answer().is_some();
        match event {
            LinkEvent::Sent if is_first => self.add(side, SENT_FIRST),
            LinkEvent::Failed if is_first => self.add(side, FAILED_FIRST),
            _ => {}
        }
    }

    fn count_completed(&mut self, now: &Sides<Observed>, side: Side) {
        let far_end = &now[side].far_end;
        let (length, highest) = (far_end.data().svids.len(), far_end.highest());
        self.add(side, COMPLETED);
        self.counts.add(completed(side, length));
        self.counts.add(editions::completed(side, highest));
        if now[side].confirmations_lost > 0 {
            self.add(side, UNCONFIRMED);
        }
        if now[side.other()].has_candidate() {
            self.add(side, COMPLETED_BESIDE);
        }
    }

    fn add(&mut self, side: Side, name: &str) {
        self.counts.add(of_side(side, name));
    }

    /// A line for each of the names that never occurred.
    pub fn missing(&self, names: &[String]) -> Vec<String> {
        self.counts.missing(names)
    }

    pub fn table(&self) -> String {
        self.counts.table(&all())
    }
}
