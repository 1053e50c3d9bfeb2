//! Messages of every command and type in every situation, and answers that come late.

use super::situation::{FIRST, IDLE, SECOND, TIMERS, WAITING};
use super::{Event, Generator, ANSWERS};
use crate::header::Header;
use crate::messages::{
    ACK, ATTENTION, ENTER, EXIT, IDENTITY, LAST_COMMAND, LAST_KIND, LAST_POSITION, MODES,
    MOST_AFTER_HEADER, NAK, PD_SID, REQ, SVIDS,
};

/// Each SVID, command and position that an answer can name in the situations.
const NAMED: [(u16, u8, u8); 10] = [
    (PD_SID, IDENTITY, 0),
    (PD_SID, SVIDS, 0),
    (FIRST, MODES, 0),
    (SECOND, MODES, 0),
    (FIRST, ENTER, 1),
    (FIRST, ENTER, 2),
    (SECOND, ENTER, 1),
    (FIRST, EXIT, 1),
    (FIRST, EXIT, LAST_POSITION),
    (SECOND, EXIT, 1),
];

impl Generator {
    pub(super) fn messages_everywhere(&mut self) {
        for situation in IDLE.into_iter().chain(WAITING) {
            let messages = self.all_messages();
            self.everything_in(situation, &messages);
        }
    }

    pub(super) fn all_messages(&mut self) -> Vec<Event> {
        let mut messages = Vec::new();
        for (svid, command, position) in NAMED {
            for kind in 0..=LAST_KIND {
                let header = Header::ours(svid, command, kind, position);
                let header = header.of_another_maker(&mut self.random);
                let counts = match (kind, command) {
                    (ACK, IDENTITY | SVIDS | MODES) => 0..=MOST_AFTER_HEADER,
                    _ => 0..=1,
                };
                messages.extend(counts.map(|count| self.drawn_message(header, count)));
            }
        }
        for command in [0, ATTENTION, ATTENTION + 1, LAST_COMMAND] {
            for kind in [REQ, ACK, NAK] {
                let header = Header::usual(command, kind).of_another_maker(&mut self.random);
                messages.extend((0..=2).map(|count| self.drawn_message(header, count)));
            }
        }
        messages
    }

    pub(super) fn drawn_message(&mut self, header: Header, count: usize) -> Event {
        let objects = [&[header.word()][..], &self.random.objects(count)].concat();
        let side = self.side;
        Event::Message { side, objects }
    }

    /// With bit 5 set, Attention in each situation, and good answers of every type to each request.
    pub(super) fn reserved(&mut self) {
        for situation in IDLE.into_iter().chain(WAITING) {
            self.set_up(situation);
            self.message(Header::usual(ATTENTION, REQ).with_reserved(), &[]);
        }
        for situation in WAITING {
            for kind in ANSWERS {
                self.set_up(situation);
                let objects = self.good_objects(self.asked[self.side].command, kind);
                let header = self.of_dock(self.fitting(kind)).with_reserved();
                self.message(header, &objects);
                self.next();
            }
        }
    }

    /// Answers after a timer or a protocol error has ended the wait: with nothing awaited, and
    /// with the same request sent again.
    pub(super) fn late_answers(&mut self) {
        for situation in WAITING {
            for timer in TIMERS {
                for kind in ANSWERS {
                    self.turn();
                    self.set_up(situation);
                    self.push(timer);
                    self.answer_well(kind);
                    self.next();
                    self.answer_well(kind);
                    self.answer_well(ACK);
                }
            }
        }
    }
}
