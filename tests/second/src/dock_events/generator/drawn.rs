//! A long drawn sequence of all events, in which exchanges mostly come to their end.

use super::requests::no_requests;
use super::{Event, Generator, ASKED, POLICY_ANSWERS, WHOLE_ROOM};
use crate::dock::{PolicyAnswer, Request, Standing, LEAST_IDENTITY, MOST_IDENTITY, MOST_SVIDS};
use crate::messages::{LAST_COMMAND, LAST_POSITION, MOST_OBJECTS, SVIDS};

const STEPS: usize = 4000;
const MOST_BYTES: usize = 30;

impl Generator {
    pub(super) fn drawn(&mut self) {
        for _ in 0..STEPS {
            match self.random.below(100) {
                0..60 => self.go_on(),
                60..72 => self.drawn_request(),
                72..76 => self.drawn_answer(),
                76..80 => self.drawn_name(),
                80..85 => self.sent_or_failed(),
                85..88 => self.drawn_load(),
                88..92 => self.drawn_room(),
                92..96 => self.drawn_no_request(),
                _ => self.drawn_bytes(),
            }
        }
    }

    /// The next event of an exchange, most often of one that turns pages.
    fn go_on(&mut self) {
        match self.run.dock().standing() {
            Standing::Ready => {
                let command = self.random.one_of(&ASKED);
                let command = self.random.one_of(&[SVIDS, SVIDS, command]);
                self.ask(command);
            }
            Standing::Asking(_) => {
                let answer = self.random.one_of(&POLICY_ANSWERS);
                let answer = self
                    .random
                    .one_of(&[PolicyAnswer::Give, PolicyAnswer::Give, answer]);
                self.answer_well(answer);
            }
            Standing::Sending { .. } if self.random.is_rare() => self.failed(),
            Standing::Sending { .. } => self.sent(),
        }
    }

    fn drawn_request(&mut self) {
        let any = self.random.byte() & LAST_COMMAND;
        let command = self.random.one_of(&ASKED);
        let command = self.random.one_of(&[command, command, any]);
        self.ask(command);
    }

    fn drawn_answer(&mut self) {
        let answer = self.random.one_of(&POLICY_ANSWERS);
        let count = self.random.below(MOST_OBJECTS + 1);
        self.answer(answer, count);
    }

    fn drawn_name(&mut self) {
        let request = Request {
            svid: self.random.svid_but_zero(),
            command: self.random.byte() & LAST_COMMAND,
            position: self.random.byte() & LAST_POSITION,
        };
        let named = self.random.one_of(&[
            Request {
                svid: request.svid,
                ..self.asked
            },
            Request {
                command: request.command,
                ..self.asked
            },
            Request {
                position: request.position,
                ..self.asked
            },
            request,
        ]);
        let answer = self.random.one_of(&POLICY_ANSWERS);
        self.push(Event::Policy {
            answer,
            request: named,
            objects: Vec::new(),
        });
    }

    /// Mostly good data, at times one identity object or one SVID too many, a 0 or a duplicate.
    fn drawn_load(&mut self) {
        let identity = LEAST_IDENTITY + self.random.below(MOST_IDENTITY - LEAST_IDENTITY + 2);
        let length = self.random.below(MOST_SVIDS + 2);
        let mut svids = self.random.different_svids(length);
        if length > 0 && self.random.is_rare() {
            let place = self.random.below(length);
            svids[place] = self.random.one_of(&[0, svids[0], svids[length - 1]]);
        }
        self.load(identity, svids);
    }

    fn drawn_room(&mut self) {
        let drawn = self.random.byte() % WHOLE_ROOM;
        let room = self.random.one_of(&[drawn, WHOLE_ROOM, WHOLE_ROOM]);
        self.room(room);
    }

    fn drawn_no_request(&mut self) {
        let messages = no_requests();
        let (header, after_header) = self.random.one_of(&messages);
        let header = header.of_another_maker(&mut self.random);
        self.message(header, after_header);
    }

    /// Bytes with nothing sound in them.
    fn drawn_bytes(&mut self) {
        let length = self.random.below(MOST_BYTES);
        let bytes = (0..length).map(|_| self.random.byte()).collect();
        self.push(Event::Bytes { bytes });
    }
}
