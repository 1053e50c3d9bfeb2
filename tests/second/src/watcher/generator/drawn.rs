//! A long drawn sequence of all events, in which exchanges mostly come to their end.

use super::situation::TIMERS;
use super::{Event, Generator, ANSWERS};
use crate::call::Call;
use crate::laptop::Candidate;
use crate::messages::{ACK, LAST_POSITION, MOST_OBJECTS, SVIDS};
use crate::pages::{page, PAGE_SVIDS};
use crate::side::Side;

const STEPS: usize = 2600;

impl Generator {
    pub(super) fn drawn(&mut self) {
        for _ in 0..STEPS {
            self.drawn_step();
        }
    }

    /// Of the side that waits, mostly, or of any.
    pub(super) fn drawn_step(&mut self) {
        self.side = match self.run.laptop().awaited() {
            Some(awaited) if !self.random.is_rare() => awaited.side,
            _ => self.random.one_of(&Side::BOTH),
        };
        match self.random.below(100) {
            0..70 => self.go_on(),
            70..78 => self.drawn_answer(),
            78..84 => self.drawn_timer(),
            84..92 => self.drawn_mode(),
            92..95 => self.drawn_asking(),
            _ => self.drawn_words(),
        }
    }

    /// The next event of an exchange.
    pub(super) fn go_on(&mut self) {
        if self.run.laptop().awaited_from(self.side).is_none() {
            self.drawn_call();
        } else if self.asked[self.side].command == SVIDS {
            self.drawn_page();
        } else {
            let kind = self.random.one_of(&ANSWERS);
            let kind = self.random.one_of(&[ACK, ACK, ACK, kind]);
            self.answer_well(kind);
        }
    }

    /// Mostly a next; with a held catalogue and no candidate most often an enter or exit.
    fn drawn_call(&mut self) {
        let has_candidate = *self.run.laptop().candidate(self.side) != Candidate::None;
        if has_candidate || self.random.below(4) == 0 {
            self.next();
        } else {
            self.drawn_mode();
        }
    }

    /// A repeat of the last page, a full page, or one that ends the list.
    fn drawn_page(&mut self) {
        let gathered = match self.run.laptop().candidate(self.side) {
            Candidate::ListOpen(catalogue) => catalogue.svids.clone(),
            _ => Vec::new(),
        };
        let length = match self.random.below(3) {
            0 => PAGE_SVIDS,
            _ => self.random.below(PAGE_SVIDS / 2),
        };
        let last = gathered.len().saturating_sub(PAGE_SVIDS);
        let svids = match self.random.below(4) {
            0 if !gathered.is_empty() => gathered[last..].to_vec(),
            _ => self.random.different_svids(length),
        };
        self.answer(ACK, &page(&svids, 0).objects);
    }

    pub(super) fn drawn_answer(&mut self) {
        let kind = self.random.one_of(&ANSWERS);
        self.answer_well(kind);
    }

    pub(super) fn drawn_timer(&mut self) {
        let timer = self.random.one_of(&TIMERS);
        self.push(timer);
    }

    /// Enter or exit, mostly of a held SVID.
    pub(super) fn drawn_mode(&mut self) {
        let mut svids = self.held_svids();
        if svids.is_empty() || self.random.is_rare() {
            svids.push(self.random.svid());
        }
        let svid = self.random.one_of(&svids);
        let position = self.random.byte() & LAST_POSITION;
        if self.random.below(2) == 0 {
            self.enter(svid, position);
        } else {
            self.exit(svid, position);
        }
    }

    fn drawn_asking(&mut self) {
        match self.random.below(3) {
            0 => self.push(Call::StartOver(self.side)),
            1 => self.push(Call::Drop(self.side)),
            _ => self.next(),
        };
    }

    /// Objects with nothing sound in them.
    fn drawn_words(&mut self) {
        let count = 1 + self.random.below(MOST_OBJECTS);
        let objects = self.random.objects(count);
        let side = self.side;
        self.push(Event::Message { side, objects });
    }
}
