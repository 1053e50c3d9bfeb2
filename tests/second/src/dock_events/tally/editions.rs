//! Counts the editions at which a dock answers, and what leaves its edition alone.

use super::STANDINGS;
use crate::counts::Counts;
use crate::dock::{Dock, Request};
use crate::dock_events::run::{ASKING, SENDING};
use crate::dock_events::{Event, Outcome};
use crate::edition::Edition;
use crate::messages::{read, version_of, Message, ACK, BUSY, EXIT, IDENTITY, LAST_MINOR, NAK};
use crate::refusals::{
    ACCEPTED, NOT_AWAITED, NOT_STRUCTURED, NOT_WHOLE_OBJECTS, SHORT_BUFFER, UNREAD_MAJOR,
    WRONG_SHAPE,
};
use std::fmt;

/// Those of messages whose version is an edition.
const REFUSALS: [u8; 4] = [NOT_WHOLE_OBJECTS, NOT_STRUCTURED, WRONG_SHAPE, NOT_AWAITED];

#[derive(Default)]
pub struct Editions {
    counts: Counts,
    /// The newest good request, and its edition.
    newest: Option<(Request, Edition)>,
}

/// One event of a dock: how it stood before, and what the event led to.
pub struct Step<'dock> {
    pub before: &'dock Dock,
    pub standing: &'static str,
    pub outcome: Outcome,
    /// The bytes sent, if any.
    pub sent: &'dock [u8],
    pub after: &'dock Dock,
}

impl Editions {
    pub fn count(&mut self, event: &Event, step: &Step) {
        self.counts
            .add(standing(step.standing, step.before.edition()));
        if let Ok(answer) = read(step.sent) {
            self.counts.add(answered(&answer));
        }
        if let Some(bytes) = event.message() {
            self.count_message(&bytes, step);
        }
        if matches!(event, Event::Load { .. }) && step.outcome.refusal == ACCEPTED {
            self.counts.add(loaded(step.after.edition()));
        }
    }

    fn count_message(&mut self, bytes: &[u8], step: &Step) {
        let (refusal, at) = (step.outcome.refusal, step.before.edition());
        let Some((major, minor)) = version_of(bytes) else {
            return;
        };
        self.counts.add(version(major, minor, refusal));
        match Edition::of_version(major, minor) {
            Some(edition) if refusal == SHORT_BUFFER => {
                self.counts.add(short(step.standing, edition, at));
            }
            Some(edition) if refusal != ACCEPTED => self.counts.add(refused(refusal, edition, at)),
            _ => {}
        }
        if let Some(message) = read(bytes).ok().filter(|_| refusal == ACCEPTED) {
            self.count_request(&message, step.standing);
        }
    }

    fn count_request(&mut self, message: &Message, standing: &'static str) {
        let (request, edition) = (message.request(), message.edition);
        let newest = self.newest.replace((request, edition));
        if let Some((_, old)) = newest.filter(|&(newest, _)| newest == request) {
            self.counts.add(replaced(standing, old, edition));
        }
    }

    /// A line for each of the names that never occurred.
    pub fn missing(&self) -> Vec<String> {
        self.counts.missing(&names())
    }
}

impl fmt::Display for Editions {
    fn fmt(&self, formatter: &mut fmt::Formatter) -> fmt::Result {
        write!(formatter, "{}", self.counts.table(&names()))
    }
}

fn names() -> Vec<String> {
    let mut names = Vec::new();
    for edition in Edition::ALL {
        names.extend([ACK, NAK, BUSY].map(|kind| policy_answer(kind, edition)));
        names.push(without_policy(edition));
        names.push(loaded(edition));
        names.extend(STANDINGS.map(|word| standing(word, edition)));
        for other in edition.others() {
            names.extend([ASKING, SENDING].map(|word| replaced(word, edition, other)));
            names.extend(STANDINGS.map(|word| short(word, edition, other)));
            names.extend(REFUSALS.map(|refusal| refused(refusal, edition, other)));
        }
    }
    for minor in 0..=LAST_MINOR {
        names.extend([0, 1].map(|major| version(major, minor, ACCEPTED)));
        names.extend([2, 3].map(|major| version(major, minor, UNREAD_MAJOR)));
    }
    names
}

fn answered(answer: &Message) -> String {
    match answer.command {
        IDENTITY..=EXIT => policy_answer(answer.kind, answer.edition),
        _ => without_policy(answer.edition),
    }
}

fn policy_answer(kind: u8, edition: Edition) -> String {
    format!("answer of type {kind} sent at {edition}")
}

fn without_policy(edition: Edition) -> String {
    format!("NAK without policy sent at {edition}")
}

fn loaded(edition: Edition) -> String {
    format!("list loaded at {edition}")
}

fn standing(standing: &str, edition: Edition) -> String {
    format!("{standing} at {edition}")
}

fn replaced(standing: &str, old: Edition, new: Edition) -> String {
    format!("the same request at {new} after {old} while {standing}")
}

fn short(standing: &str, edition: Edition, at: Edition) -> String {
    format!("request at {edition} refused {SHORT_BUFFER} while {standing} at {at}")
}

fn refused(refusal: u8, edition: Edition, at: Edition) -> String {
    format!("message at {edition} refused {refusal} by a dock at {at}")
}

fn version(major: u8, minor: u8, answer: u8) -> String {
    format!("major {major} minor {minor} answered {answer}")
}
