//! Output buffers of every length for every kind of answer.

use super::{Generator, ASKED, WHOLE_ROOM};
use crate::dock::{PolicyAnswer, LEAST_IDENTITY, MOST_IDENTITY};
use crate::messages::{ENTER, EXIT, IDENTITY, MODES, MOST_AFTER_HEADER, SVIDS};
use crate::pages::PAGE_SVIDS;
use crate::refusals::ACCEPTED;

/// Their pages have every number of objects, with one zero, with two and with none.
const LENGTHS: [usize; 12] = [0, 1, 2, 3, 4, 5, 7, 8, 10, 11, 12, 24];

impl Generator {
    pub(super) fn rooms(&mut self) {
        self.rooms_of_identities();
        self.rooms_of_pages();
        for count in 1..=MOST_AFTER_HEADER {
            self.rooms_of(MODES, PolicyAnswer::Give, count);
        }
        self.rooms_of(ENTER, PolicyAnswer::Give, 0);
        self.rooms_of(EXIT, PolicyAnswer::Give, 0);
        self.rooms_of_naks();
        self.limits_without_room();
    }

    fn rooms_of_identities(&mut self) {
        for count in LEAST_IDENTITY..=MOST_IDENTITY {
            self.make_ready();
            self.load(count, vec![1]);
            self.rooms_of(IDENTITY, PolicyAnswer::Give, 0);
        }
    }

    fn rooms_of_pages(&mut self) {
        for length in LENGTHS {
            self.make_ready();
            self.load_list(length);
            for _ in 0..=length / PAGE_SVIDS {
                self.rooms_of(SVIDS, PolicyAnswer::Give, 0);
            }
        }
    }

    pub(super) fn rooms_of_naks(&mut self) {
        for command in ASKED {
            self.rooms_of(command, PolicyAnswer::Nak, 0);
            self.rooms_of(command, PolicyAnswer::Busy, 0);
        }
    }

    /// One answer with every room that is too short and the first that is not, then the next answer
    /// with a room that is too long.
    pub(super) fn rooms_of(&mut self, command: u8, answer: PolicyAnswer, count: usize) {
        self.ask(command);
        let enough = (0..=WHOLE_ROOM).find(|&room| {
            self.room(room);
            self.answer(answer, count).refusal == ACCEPTED
        });
        self.sent();
        let enough = enough.expect("the whole room is enough for any answer");
        let room = self.random.one_of(&[enough + 1, enough + 3, u8::MAX]);
        self.room(room);
        self.ask(command);
        self.answer(answer, count);
        self.failed();
        self.whole_room();
    }

    /// Objects that break the limits are refused before a short room is.
    pub(super) fn limits_without_room(&mut self) {
        for command in ASKED {
            self.ask(command);
            self.room(0);
            for count in [0, 1, MOST_AFTER_HEADER + 1] {
                self.answer(PolicyAnswer::Give, count);
            }
            self.answer(PolicyAnswer::Nak, 1);
            self.answer(PolicyAnswer::Busy, 1);
            self.whole_room();
            self.give();
            self.sent();
        }
    }
}
