//! Policy's answers: with every number of objects, under another name, and when none is awaited.

use super::situation::{situations, Situation};
use super::{Event, Generator, ASKED, POLICY_ANSWERS};
use crate::dock::{PolicyAnswer, Request, Standing, MOST_SVIDS};
use crate::messages::{LAST_COMMAND, LAST_POSITION, MODES};

/// One and two more than a message can hold.
const MOST_COUNT: usize = 8;
/// With 64 the length of the objects comes round to 0 in a byte.
const LARGE_COUNTS: [usize; 5] = [9, 15, 63, 64, 255];
/// Bits of an SVID, and bits past the fields of command and position.
const SVID_BITS: [u16; 4] = [0x0001, 0x0080, 0x0100, 0x8000];
const COMMAND_BITS: [u8; 3] = [0x20, 0x40, 0x80];
const POSITION_BITS: [u8; 2] = [0x08, 0x80];

impl Generator {
    pub(super) fn policy_answers(&mut self) {
        for length in [0, MOST_SVIDS] {
            self.make_ready();
            self.load_list(length);
            self.answers_of_every_count();
        }
        self.large_counts();
        self.misnamed();
        self.not_asked();
    }

    /// Each of policy's answers to each command, with 0 to 8 objects.
    pub(super) fn answers_of_every_count(&mut self) {
        for command in ASKED {
            for answer in POLICY_ANSWERS {
                for count in 0..=MOST_COUNT {
                    self.ask_unless_asked(command);
                    self.answer(answer, count);
                }
                self.close();
            }
        }
    }

    /// A refused answer leaves the dock asking, so that the same request takes the next answer.
    fn ask_unless_asked(&mut self, command: u8) {
        if self.run.dock().standing() != Standing::Asking(self.asked)
            || self.asked.command != command
        {
            self.sent();
            self.ask(command);
        }
    }

    fn large_counts(&mut self) {
        self.ask(MODES);
        for count in LARGE_COUNTS {
            self.answer(PolicyAnswer::Give, count);
        }
        self.answer(PolicyAnswer::Busy, u8::MAX.into());
        self.give();
        self.sent();
    }

    /// Answers to another request, also with objects that break the limits and without a room.
    fn misnamed(&mut self) {
        for command in ASKED {
            self.open_list();
            self.ask(command);
            for request in others(self.asked) {
                self.answer_another(request);
            }
            self.room(0);
            for request in others(self.asked).into_iter().take(SVID_BITS.len()) {
                self.answer_another(request);
            }
            self.whole_room();
            self.give();
            self.sent();
        }
    }

    fn answer_another(&mut self, request: Request) {
        let answer = self.random.one_of(&POLICY_ANSWERS);
        let count = self.random.one_of(&[0, 0, 1]);
        let objects = self.random.objects(count);
        self.push(Event::Policy {
            answer,
            request,
            objects,
        });
    }

    /// The right answer once more after it was taken, and after it was confirmed.
    fn not_asked(&mut self) {
        for situation in situations() {
            if !matches!(situation, Situation::Asking(_)) {
                self.open_list();
                self.bring_to(situation);
                self.answer_all();
                self.sent_or_failed();
                self.answer_all();
            }
        }
        self.answer_to_command_without_policy();
    }

    pub(super) fn answer_all(&mut self) {
        for answer in POLICY_ANSWERS {
            self.answer_well(answer);
        }
    }

    /// Policy was never asked about such a command, so it has nothing to answer.
    fn answer_to_command_without_policy(&mut self) {
        let request = Request {
            svid: 0xFF01,
            command: LAST_COMMAND,
            position: 0,
        };
        self.ask(LAST_COMMAND);
        self.answer_another(request);
        self.sent();
        self.answer_another(request);
    }
}

/// Requests that differ from this one in one field.
fn others(request: Request) -> Vec<Request> {
    let Request {
        svid,
        command,
        position,
    } = request;
    let svids = SVID_BITS.map(|bit| Request {
        svid: svid ^ bit,
        ..request
    });
    let commands = (0..=LAST_COMMAND)
        .filter(|&other| other != command)
        .chain(COMMAND_BITS.map(|bit| command | bit))
        .map(|command| Request { command, ..request });
    let positions = (0..=LAST_POSITION)
        .filter(|&other| other != position)
        .chain(POSITION_BITS.map(|bit| position | bit))
        .map(|position| Request {
            position,
            ..request
        });
    svids.into_iter().chain(commands).chain(positions).collect()
}
