//! The situations of the dock that sequences begin in, and the way to each of them.

use super::{Generator, ASKED, POLICY_ANSWERS};
use crate::dock::{PolicyAnswer, Standing, LEAST_IDENTITY, MOST_IDENTITY, MOST_SVIDS};
use crate::messages::{IDENTITY, LAST_COMMAND, SVIDS};
use crate::pages::PAGE_SVIDS;

#[derive(Clone, Copy)]
pub(super) enum Situation {
    Ready,
    /// Policy has been asked about this command.
    Asking(u8),
    /// Policy's answer to this command is being sent.
    Answering(u8, PolicyAnswer),
    /// The NAK to a command that policy is not asked about is being sent.
    AnsweringAlone,
}

/// One situation for each standing.
pub(super) const STANDINGS: [Situation; 3] = [
    Situation::Ready,
    Situation::Asking(SVIDS),
    Situation::Answering(SVIDS, PolicyAnswer::Give),
];

pub(super) fn situations() -> Vec<Situation> {
    let mut situations = vec![Situation::Ready, Situation::AnsweringAlone];
    for command in ASKED {
        situations.push(Situation::Asking(command));
        situations.extend(POLICY_ANSWERS.map(|answer| Situation::Answering(command, answer)));
    }
    situations
}

impl Generator {
    /// Needs a room that no answer exceeds.
    pub(super) fn bring_to(&mut self, situation: Situation) {
        match situation {
            Situation::Ready => self.make_ready(),
            Situation::Asking(command) => {
                self.ask(command);
            }
            Situation::Answering(command, answer) => {
                self.ask(command);
                self.answer_well(answer);
            }
            Situation::AnsweringAlone => {
                self.ask(LAST_COMMAND);
            }
        }
    }

    pub(super) fn is_ready(&self) -> bool {
        self.run.dock().standing() == Standing::Ready
    }

    /// Leaves the page where it is.
    pub(super) fn make_ready(&mut self) {
        if let Standing::Asking(_) = self.run.dock().standing() {
            self.answer_well(PolicyAnswer::Nak);
        }
        if !self.is_ready() {
            self.failed();
        }
    }

    pub(super) fn load_list(&mut self, length: usize) {
        let more_identity = self.random.below(MOST_IDENTITY - LEAST_IDENTITY + 1);
        let svids = self.random.different_svids(length);
        self.load(LEAST_IDENTITY + more_identity, svids);
    }

    pub(super) fn identify(&mut self) {
        self.ask(IDENTITY);
        self.give();
        self.sent();
    }

    pub(super) fn turn_page(&mut self) {
        self.ask(SVIDS);
        self.give();
        self.sent();
    }

    /// Shows the present page without moving it.
    pub(super) fn show_page(&mut self) {
        self.ask(SVIDS);
        self.give();
        self.failed();
    }

    /// Makes the dock ready, on a page other than the first.
    pub(super) fn open_list(&mut self) {
        self.make_ready();
        if self.run.dock().svid_count() < PAGE_SVIDS {
            let length = PAGE_SVIDS + self.random.below(MOST_SVIDS - PAGE_SVIDS + 1);
            self.load_list(length);
        }
        if self.run.dock().page() == 0 {
            self.turn_page();
        }
    }

    /// One of the ways in which a request comes to its end, or does not.
    pub(super) fn close(&mut self) {
        match self.random.below(4) {
            0 => self.sent_or_failed(),
            1 => {
                self.give();
                self.sent_or_failed();
            }
            2 => {
                let answer = self.random.one_of(&POLICY_ANSWERS);
                self.answer_well(answer);
                self.sent();
            }
            _ => (),
        }
    }
}
