//! Short streams, each from its own start: whole gatherings of every length with trouble on the
//! way, about two hundred unconfirmed pages, and a few exchanges of every sort.

use super::drawn::TROUBLES;
use super::late::HEARD;
use super::sort::Sort;
use super::{Event, Generator, LinkEvent};
use crate::call::Call;
use crate::laptop::MOST_PAGES;
use crate::pages::PAGE_SVIDS;
use crate::side::Side;

/// A list so short is gathered to its end.
pub const FEW_SVIDS: usize = 6;

impl Generator {
    pub(super) fn short(&mut self, sort: Sort) {
        match sort {
            Sort::TwoHundred { side, length, ends } => {
                self.side = side;
                self.about_two_hundred(length, ends);
            }
            Sort::Whole { side, .. } => {
                self.side = side;
                self.whole_with_trouble();
            }
            Sort::Both { .. } => self.both_with_trouble(),
            Sort::Few {
                side,
                length,
                round,
            } => {
                self.side = side;
                self.few(length, round);
            }
        }
    }

    /// The first page comes unconfirmed until the list can just end with the two hundredth, or not.
    fn about_two_hundred(&mut self, length: usize, ends: bool) {
        if !ends {
            return self.until(MOST_PAGES);
        }
        self.until(MOST_PAGES - 1 - length / PAGE_SVIDS);
        self.gather_on();
    }

    /// At its end the other side, if it has a candidate, gathers on.
    fn whole_with_trouble(&mut self) {
        self.open();
        while self.has_candidate() {
            self.step_with_trouble();
        }
        self.at_other(|other| {
            other.finish();
            other.gather_on();
        });
    }

    /// In turn, as it is drawn.
    fn both_with_trouble(&mut self) {
        for side in Side::BOTH {
            self.side = side;
            self.open();
        }
        while let Some(side) = self.drawn_gathering() {
            self.side = side;
            self.step_with_trouble();
        }
    }

    /// A side that has a candidate.
    fn drawn_gathering(&mut self) -> Option<Side> {
        let first = self.random.one_of(&Side::BOTH);
        let mut sides = [first, first.other()].into_iter();
        sides.find(|&side| self.system.has_candidate(side))
    }

    /// Each page may come again, each exchange may fail first, and most answers go unheard.
    fn step_with_trouble(&mut self) {
        if self.list_is_open() && !self.last_page_is_shown() {
            return match self.random.below(3) {
                0 => self.page_unconfirmed(),
                1 => self.failing_exchange(),
                _ => self.exchange(),
            };
        }
        if self.random.below(16) == 0 {
            self.failing_exchange();
        }
        self.answer();
        self.happen(LinkEvent::AnswerArrives);
    }

    /// A request or an answer that is lost, or a BUSY.
    fn failing_exchange(&mut self) {
        self.next();
        match self.random.below(3) {
            0 => self.happen(LinkEvent::RequestLost),
            1 => {
                self.happen(LinkEvent::RequestReaches);
                self.happen(LinkEvent::Give);
                self.happen(LinkEvent::AnswerLost);
            }
            _ => {
                self.happen(LinkEvent::RequestReaches);
                self.happen(LinkEvent::Busy);
            }
        }
        self.finish();
    }

    fn few(&mut self, length: usize, round: u64) {
        let side = self.side;
        let heard = self.random.one_of(&HEARD);
        let exchanges = self.random.below(3);
        match round % 9 {
            0 => self.late_with_nothing_awaited(exchanges, heard),
            1 => self.late_with_newer_request(exchanges, heard),
            2 => self.newer_request_first(exchanges, heard),
            3 => self.late_beside(exchanges, heard),
            4 => self.given_beside(exchanges, heard),
            5 => self.calls_beside(exchanges),
            6 => self.few_modes(),
            7 => self.few_in_vain(length),
            _ => self.failing_exchange(),
        }
        let trouble = self.random.one_of(&TROUBLES);
        let steps = 6 + self.random.below(16);
        self.steps(steps, trouble);
        if length <= FEW_SVIDS {
            self.settle();
            self.side = side;
            self.leave_all_modes();
            self.gather();
            self.enter_and_exit();
        }
    }

    /// Enters and exits over the link, of the first mode of what is held and of a drawn one; the
    /// other side asks before and after.
    fn few_modes(&mut self) {
        let (side, position) = (self.side, 1);
        self.at_other(Self::exchange);
        for svid in self.held_svids() {
            let enter = Call::Enter {
                side,
                svid,
                position,
            };
            let exit = Call::Exit {
                side,
                svid,
                position,
            };
            for call in [enter, exit, enter] {
                self.push(Event::Call(call));
                self.finish();
            }
        }
        self.drawn_mode();
        self.finish();
        self.at_other(Self::exchange);
    }
}
