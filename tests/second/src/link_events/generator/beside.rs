//! What the other side does while the gathering of one goes on: exchanges in between, and events
//! while the one waits.

use super::{Event, Generator, LinkEvent};
use crate::call::Call;
use crate::side::Side;

/// What becomes of a request before its answer arrives.
const BEFORE_THE_ANSWER: [LinkEvent; 2] = [LinkEvent::RequestReaches, LinkEvent::Give];

impl Generator {
    /// Makes the events of the other side.
    pub(super) fn at_other(&mut self, make: impl FnOnce(&mut Self)) {
        self.side = self.side.other();
        make(self);
        self.side = self.side.other();
    }

    /// Lets what is under way on both sides come to its end, that of the one that waits first.
    pub(super) fn settle(&mut self) {
        let side = self.side;
        let first = self.system.waiting().unwrap_or(side);
        for settled in [first, first.other()] {
            self.side = settled;
            self.finish();
        }
        self.side = side;
    }

    /// At times, before a request of this side, a request of the other whose wait comes to its end.
    pub(super) fn between(&mut self) {
        if self.system.waiting().is_none() && self.random.is_rare() {
            self.at_other(Self::exchange_in_between);
        }
    }

    /// The wait ends when the request is lost, the dock asks policy, or the answer is under way and
    /// then late; or the answer comes.
    fn exchange_in_between(&mut self) {
        self.ask_next();
        let steps = self.random.below(BEFORE_THE_ANSWER.len() + 2);
        let Some(events) = BEFORE_THE_ANSWER.get(..steps) else {
            return self.finish();
        };
        for &event in events {
            self.happen(event);
        }
        if self.waits() {
            self.end_wait();
        }
    }

    /// At times, while this side waits: what is late on the other goes on, or a call of it is
    /// refused 7.
    pub(super) fn beside(&mut self) {
        if self.waits() && self.random.is_rare() {
            self.at_other(Self::go_on);
        }
    }

    /// The late answer arrives while the other side waits, and what this side asks is refused 7.
    pub(super) fn late_beside(&mut self, exchanges: usize, heard: Option<LinkEvent>) {
        self.wait_has_ended(exchanges, heard);
        self.at_other(|other| {
            other.ask_next();
        });
        self.happen(LinkEvent::AnswerArrives);
        self.ask_next();
        self.at_other(Self::finish);
        self.exchange();
    }

    /// A wait has ended while the dock asks policy, which answers while the other side waits; that
    /// wait ends first, and then the late answer arrives.
    pub(super) fn given_beside(&mut self, exchanges: usize, heard: Option<LinkEvent>) {
        self.exchanges_anew(exchanges);
        self.ask_next();
        self.happen(LinkEvent::RequestReaches);
        self.end_wait();
        self.at_other(|other| {
            other.ask_next();
            other.happen(LinkEvent::RequestReaches);
        });
        self.happen(LinkEvent::Give);
        self.hear(heard);
        self.at_other(Self::end_wait);
        self.ask_next();
        self.happen(LinkEvent::AnswerArrives);
        self.settle();
    }

    /// Every call of this side is refused 7 while the other waits.
    pub(super) fn calls_beside(&mut self, exchanges: usize) {
        self.exchanges_anew(exchanges);
        self.at_other(|other| {
            other.ask_next();
        });
        let asked: [fn(Side) -> Call; 3] = [Call::Drop, Call::StartOver, Call::Next];
        for call in asked {
            self.push(Event::Call(call(self.side)));
        }
        self.drawn_mode();
        self.end_wait();
        self.exchange();
    }
}
