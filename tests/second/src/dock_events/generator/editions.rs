//! Requests at each edition: every answer at each, requests that replace one but for the edition, and
//! all that leaves the dock's edition alone.

use super::situation::{Situation, STANDINGS};
use super::{Event, Generator, ASKED, POLICY_ANSWERS};
use crate::edition::Edition;
use crate::header::Header;
use crate::messages::{ACK, ATTENTION, LAST_COMMAND, REQ, SVIDS};
use crate::pages::PAGE_SVIDS;

/// Bytes that are refused 1: a header, and an object that is cut.
const CUT_LENGTH: usize = 6;
const LOADED: usize = 2 * PAGE_SVIDS;

impl Generator {
    pub(super) fn editions(&mut self) {
        for edition in Edition::ALL {
            self.answers_at(edition);
            for other in edition.others() {
                self.replaced_at(edition, other);
            }
            for situation in STANDINGS {
                self.leave_edition(edition, situation);
            }
        }
    }

    /// Each of policy's answers to each command, and the NAK without it.
    fn answers_at(&mut self, edition: Edition) {
        self.open_list();
        for command in ASKED {
            for answer in POLICY_ANSWERS {
                self.ask_at(edition, command);
                self.answer_well(answer);
                self.sent_or_failed();
            }
        }
        self.ask_at(edition, 0);
        self.sent();
        self.ask_at(edition, LAST_COMMAND);
        self.failed();
    }

    /// The same request at another edition, before and after policy's answer, which is repeated.
    fn replaced_at(&mut self, edition: Edition, other: Edition) {
        for command in ASKED {
            let (header, after_header) = self.request(command);
            for is_answered in [false, true] {
                self.open_list();
                let answer = self.random.one_of(&POLICY_ANSWERS);
                let first = header.read_as(edition, &mut self.random);
                self.message(first, after_header);
                if is_answered {
                    self.answer_well(answer);
                }
                let second = header.read_as(other, &mut self.random);
                self.message(second, after_header);
                self.answer_well(answer);
                self.sent_or_failed();
            }
        }
    }

    /// Messages at the other editions that are refused in a standing, and loading. What is sent
    /// after them is at the first.
    fn leave_edition(&mut self, edition: Edition, situation: Situation) {
        self.open_list();
        self.bring_to_at(edition, situation);
        for other in edition.others() {
            self.room(0);
            self.ask_at(other, LAST_COMMAND);
            self.ask_at(other, 0);
            self.whole_room();
            self.refused_at(other);
        }
        self.load_list(LOADED);
        self.give();
        self.sent();
        self.load_list(LOADED);
    }

    fn bring_to_at(&mut self, edition: Edition, situation: Situation) {
        self.ask_at(edition, SVIDS);
        match situation {
            Situation::Ready => self.make_ready(),
            Situation::Asking(_) => {}
            _ => {
                self.give();
            }
        }
    }

    /// A message of every refusal from 1 to 6 that has one.
    fn refused_at(&mut self, edition: Edition) {
        let request = Header::usual(SVIDS, REQ).read_as(edition, &mut self.random);
        let mut bytes = request.word().to_le_bytes().to_vec();
        bytes.resize(CUT_LENGTH, 0);
        self.push(Event::Bytes { bytes });
        let structured = false;
        self.message(
            Header {
                structured,
                ..request
            },
            0,
        );
        let major = request.major + 2;
        self.message(Header { major, ..request }, 0);
        self.message(request, 1);
        let kind = ACK;
        self.message(Header { kind, ..request }, 1);
        let attention = Header::usual(ATTENTION, REQ).read_as(edition, &mut self.random);
        self.message(attention, 0);
    }
}
