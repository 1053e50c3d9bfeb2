//! Editions on one side (02, R-5): what the laptop sends between an Identity ACK and the next Identity
//! is at the lower of that ACK's edition and ours, and Identity at ours; what the dock answers is at
//! the lower of the request's edition and its highest.

use super::Observed;
use crate::edition::{Edition, OURS};
use crate::link_events::{Event, FarEnd, LinkEvent};
use crate::messages::{read, Message, ACK, IDENTITY};

pub const REQUEST_AT_OTHER_EDITION: &str = "a request was sent at another edition than is due";
pub const ANSWER_AT_OTHER_EDITION: &str = "an answer was sent at another edition than is due";

/// Told from what is under way alone.
pub struct Editions {
    /// The dock's highest.
    highest: Edition,
    /// At which a request but Identity is due: ours, till an Identity ACK is taken.
    due: Edition,
    /// That of the last request that reached the dock.
    asked: Edition,
}

impl Editions {
    pub fn of(far_end: &FarEnd) -> Self {
        Editions {
            highest: far_end.highest(),
            due: OURS,
            asked: OURS,
        }
    }

    /// The rules on an event that led from `before` to `now`, or which of them it breaks.
    pub fn check(
        &mut self,
        event: &Event,
        before: &Observed,
        now: &Observed,
    ) -> Result<(), &'static str> {
        match event {
            Event::Call(_) if now.request != before.request => match sent(&now.request) {
                Some(request) => self.check_request(&request),
                None => Ok(()),
            },
            Event::On(_, LinkEvent::RequestReaches) => {
                self.asked = sent(&before.request).map_or(self.asked, |request| request.edition);
                Ok(())
            }
            Event::On(_, LinkEvent::Give | LinkEvent::Busy) if now.answer != before.answer => {
                self.check_answer(sent(&now.answer))
            }
            Event::On(_, LinkEvent::AnswerArrives) => {
                self.take(sent(&before.answer), before);
                Ok(())
            }
            _ => Ok(()),
        }
    }

    fn check_request(&mut self, request: &Message) -> Result<(), &'static str> {
        if request.command == IDENTITY {
            self.due = OURS;
        }
        if request.edition != self.due {
            return Err(REQUEST_AT_OTHER_EDITION);
        }
        Ok(())
    }

    fn check_answer(&self, answer: Option<Message>) -> Result<(), &'static str> {
        let due = self.asked.lower(self.highest);
        if answer.is_some_and(|answer| answer.edition != due) {
            return Err(ANSWER_AT_OTHER_EDITION);
        }
        Ok(())
    }

    /// The awaited Identity ACK alone says at which edition requests are due.
    fn take(&mut self, answer: Option<Message>, before: &Observed) {
        let awaited = answer.filter(|answer| before.awaited == Some(answer.request()));
        if let Some(answer) = awaited {
            if (answer.command, answer.kind) == (IDENTITY, ACK) {
                self.due = answer.edition.lower(OURS);
            }
        }
    }
}

fn sent(bytes: &Option<Vec<u8>>) -> Option<Message> {
    bytes.as_deref().and_then(|bytes| read(bytes).ok())
}
