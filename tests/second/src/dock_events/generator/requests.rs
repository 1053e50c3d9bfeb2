//! Requests in every situation, where they replace another, and messages that are no requests.

use super::situation::{situations, STANDINGS};
use super::{without_policy, Generator, ASKED, WHOLE_ROOM};
use crate::header::Header;
use crate::messages::{
    ACK, ATTENTION, BUSY, ENTER, EXIT, IDENTITY, LAST_COMMAND, MODES, NAK, REQ, SVIDS,
};
use crate::refusals::ACCEPTED;

/// Commands with a row of their own, and the edges of those that are answered without policy.
const REQUESTED: [u8; 8] = [1, 2, 3, 4, 5, 0, 7, LAST_COMMAND];
/// Rooms too short for any message, and the least that is not.
const LEAST_ROOMS: [u8; 5] = [0, 1, 2, 3, 4];
/// The least and the most objects that an ACK has after the header.
const ACKS: [(u8, usize, usize); 5] = [
    (IDENTITY, 3, 6),
    (SVIDS, 1, 6),
    (MODES, 1, 6),
    (ENTER, 0, 0),
    (EXIT, 0, 0),
];

impl Generator {
    pub(super) fn replacements(&mut self) {
        for situation in situations() {
            for command in REQUESTED {
                self.open_list();
                self.bring_to(situation);
                self.ask(command);
                self.close();
            }
        }
    }

    pub(super) fn commands_without_policy(&mut self) {
        for situation in STANDINGS {
            for room in LEAST_ROOMS {
                self.open_list();
                self.bring_to(situation);
                self.room(room);
                for command in without_policy() {
                    if self.ask(command).refusal == ACCEPTED {
                        self.whole_room();
                        self.bring_to(situation);
                        self.room(room);
                    }
                }
                self.whole_room();
                self.close();
            }
        }
    }

    /// Requests of every command with bit 5 set, in every standing.
    pub(super) fn reserved(&mut self) {
        for situation in STANDINGS {
            for command in ASKED.into_iter().chain(without_policy()) {
                self.open_list();
                self.bring_to(situation);
                self.message(Header::usual(command, REQ).with_reserved(), 0);
                self.close();
            }
        }
    }

    /// What a dock never takes, also without a room for an answer.
    pub(super) fn not_awaited(&mut self) {
        for situation in STANDINGS {
            self.open_list();
            self.bring_to(situation);
            for room in [0, WHOLE_ROOM] {
                self.room(room);
                for (header, after_header) in no_requests() {
                    let header = header.of_another_maker(&mut self.random);
                    self.message(header, after_header);
                }
            }
            self.close();
        }
    }
}

/// Answers and Attention, well-shaped: each is a header and the number of objects after it.
pub(super) fn no_requests() -> Vec<(Header, usize)> {
    let acks = ACKS.into_iter().flat_map(|(command, least, most)| {
        (least..=most).map(move |count| (Header::usual(command, ACK), count))
    });
    let naks = ASKED.into_iter().chain(without_policy());
    let naks = naks.map(|command| (Header::usual(command, NAK), 0));
    let busies = ASKED.map(|command| (Header::usual(command, BUSY), 0));
    let attentions = [0, 1].map(|count| (Header::usual(ATTENTION, REQ), count));
    acks.chain(naks).chain(busies).chain(attentions).collect()
}
