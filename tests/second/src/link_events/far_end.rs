//! The far end of a side, a fair dock or the near cable plug that answers as a dock does, and the
//! link to it.

mod begin;

use super::link::{Heard, Link};
use super::{Data, LinkEvent};
use crate::dock::{Dock, PolicyAnswer, Standing};
use crate::edition::Edition;
use crate::messages::{MODES, MOST_OBJECTS, OBJECT_BYTES, SVIDS};
use crate::pages::PAGE_SVIDS;
use crate::refusals::NOT_TAKEN_NOW;
use std::rc::Rc;

const ROOM: usize = MOST_OBJECTS * OBJECT_BYTES;

#[derive(Clone, Debug, PartialEq, Eq)]
pub struct FarEnd {
    pub(super) link: Link,
    dock: Dock,
    data: Rc<Data>,
    highest: Edition,
    confirmations_lost: usize,
}

impl FarEnd {
    pub fn link(&self) -> &Link {
        &self.link
    }

    pub fn dock(&self) -> &Dock {
        &self.dock
    }

    pub fn data(&self) -> &Data {
        &self.data
    }

    /// The highest edition that the dock speaks.
    pub fn highest(&self) -> Edition {
        self.highest
    }

    /// How many pages before the last, counted since the list was opened, the dock never hears to
    /// have been sent.
    pub fn confirmations_lost(&self) -> usize {
        self.confirmations_lost
    }

    pub fn last_page(&self) -> usize {
        self.data.svids.len() / PAGE_SVIDS
    }

    pub fn permits(&self, event: LinkEvent) -> bool {
        match event {
            LinkEvent::RequestReaches => self.link.can_reach(),
            LinkEvent::RequestLost => self.link.has_request(),
            LinkEvent::Give | LinkEvent::Busy => {
                matches!(self.dock.standing(), Standing::Asking(_))
            }
            LinkEvent::AnswerArrives => self.link.answer().is_some(),
            LinkEvent::AnswerLost => self.link.can_lose_answer(),
            LinkEvent::Sent => self.link.can_hear(Heard::Sent),
            LinkEvent::Failed => self.link.can_hear(Heard::Failed),
        }
    }

    /// A counted page of which nothing was heard before the next request counts as failed.
    pub(super) fn reach(&mut self) -> Result<(), u8> {
        if self.link.is_unconfirmed_page() && !self.link.has_heard(Heard::Failed) {
            self.confirmations_lost += 1;
        }
        let bytes = self.link.take_request().ok_or(NOT_TAKEN_NOW)?;
        self.dock.message(&bytes, &mut []).map(|_| ())
    }

    /// Give brings the modes of a listed SVID; the other answers bring nothing.
    pub(super) fn policy(&mut self, answer: PolicyAnswer) -> Result<(), u8> {
        let Standing::Asking(request) = self.dock.standing() else {
            return Err(NOT_TAKEN_NOW);
        };
        let (answer, objects) = match (answer, request.command) {
            (PolicyAnswer::Give, MODES) => match self.data.modes_of(request.svid) {
                Some(modes) => (PolicyAnswer::Give, modes),
                None => (PolicyAnswer::Busy, &[][..]),
            },
            _ => (answer, &[][..]),
        };
        let is_page = answer == PolicyAnswer::Give && request.command == SVIDS;
        let is_page_before_last = is_page && self.dock.page() < self.last_page();
        let mut out = [0; ROOM];
        let length = self.dock.policy(answer, request, objects, &mut out)?;
        self.link.answer_sent(&out[..length], is_page_before_last);
        Ok(())
    }

    /// The laptop has its answer: counted as a page or not, and opening a list or not.
    pub(super) fn answer_arrived(&mut self, is_counted: bool, opens_list: bool) {
        self.link.answer_arrived(is_counted);
        if opens_list {
            self.confirmations_lost = 0;
        }
        if self.link.is_unconfirmed_page() && self.link.has_heard(Heard::Failed) {
            self.confirmations_lost += 1;
        }
    }

    pub(super) fn hear(&mut self, heard: Heard) -> Result<(), u8> {
        if heard == Heard::Failed && self.link.is_unconfirmed_page() {
            self.confirmations_lost += 1;
        }
        self.link.hear(heard);
        match heard {
            Heard::Sent => self.dock.sent(),
            Heard::Failed => self.dock.failed(),
        }
    }
}
