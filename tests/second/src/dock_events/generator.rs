//! Makes the events: the cases of 01, then sequences that reach every rule of the dock end.

mod damage;
mod drawn;
mod editions;
mod lists;
mod loads;
mod policy;
mod requests;
mod rooms;
mod situation;
mod unloaded;

use super::run::WHOLE_ROOM;
use super::{Event, Outcome, Run};
use crate::dock::{PolicyAnswer, Request, Standing};
use crate::edition::Edition;
use crate::header::Header;
use crate::messages::{
    bytes_of, ENTER, EXIT, IDENTITY, LAST_COMMAND, LAST_MODE_POSITION, LAST_POSITION, MODES,
    MOST_AFTER_HEADER, MOST_OBJECTS, PD_SID, REQ, SVIDS,
};
use crate::random::Random;

/// The commands that policy is asked about.
const ASKED: [u8; 5] = [IDENTITY, SVIDS, MODES, ENTER, EXIT];
const POLICY_ANSWERS: [PolicyAnswer; 3] =
    [PolicyAnswer::Give, PolicyAnswer::Nak, PolicyAnswer::Busy];

struct Generator {
    random: Random,
    /// The dock under the events so far.
    run: Run,
    /// The last request that policy was asked about.
    asked: Request,
    events: Vec<Event>,
}

/// All events of a seed, in the order of the stream. Nothing unloads a dock, so the sequences that
/// need an unloaded one come before the cases.
pub fn generate(seed: u64) -> Vec<Event> {
    let mut generator = Generator {
        random: Random::from_seed(seed),
        run: Run::default(),
        asked: Request {
            svid: PD_SID,
            command: IDENTITY,
            position: 0,
        },
        events: Vec::new(),
    };
    generator.unloaded();
    generator.cases();
    generator.lists();
    generator.loads();
    generator.replacements();
    generator.commands_without_policy();
    generator.policy_answers();
    generator.rooms();
    generator.not_awaited();
    generator.damage();
    generator.reserved();
    generator.editions();
    generator.drawn();
    generator.events
}

/// The commands that are answered without policy.
fn without_policy() -> impl Iterator<Item = u8> {
    [0].into_iter().chain(7..=LAST_COMMAND)
}

impl Generator {
    fn push(&mut self, event: Event) -> Outcome {
        let outcome = self.run.take(&event);
        if let Standing::Asking(request) = self.run.dock().standing() {
            self.asked = request;
        }
        self.events.push(event);
        outcome
    }

    /// A message with that header and so many drawn objects after it.
    fn message(&mut self, header: Header, after_header: usize) -> Outcome {
        let mut objects = vec![header.word()];
        objects.extend(self.random.objects(after_header));
        if self.random.is_rare() {
            let bytes = bytes_of(&objects);
            self.push(Event::Bytes { bytes })
        } else {
            self.push(Event::Objects { objects })
        }
    }

    /// A good request of the command, in a version that is read, and with bit 5 clear or set.
    fn ask(&mut self, command: u8) -> Outcome {
        let (header, after_header) = self.request(command);
        let header = header.of_another_maker(&mut self.random);
        self.message(header, after_header)
    }

    /// The same at that edition.
    fn ask_at(&mut self, edition: Edition, command: u8) -> Outcome {
        let (header, after_header) = self.request(command);
        let header = header.of_another_maker(&mut self.random);
        let header = header.read_as(edition, &mut self.random);
        self.message(header, after_header)
    }

    /// The header of a request and the number of objects after it, drawn in all that the command's
    /// row leaves free.
    fn request(&mut self, command: u8) -> (Header, usize) {
        let svid = match command {
            IDENTITY | SVIDS => PD_SID,
            MODES | ENTER | EXIT => self.random.svid_but_zero(),
            _ if self.random.is_rare() => 0,
            _ => self.random.svid_but_zero(),
        };
        let position = match command {
            IDENTITY | SVIDS | MODES => 0,
            ENTER => 1 + self.random.byte() % LAST_MODE_POSITION,
            EXIT => 1 + self.random.byte() % LAST_POSITION,
            _ => self.random.byte() & LAST_POSITION,
        };
        let after_header = match command {
            ENTER => self.random.below(2),
            IDENTITY | SVIDS | MODES | EXIT => 0,
            _ => self.random.below(MOST_OBJECTS),
        };
        (Header::ours(svid, command, REQ, position), after_header)
    }

    /// Policy's answer to the last request it was asked about.
    fn answer(&mut self, answer: PolicyAnswer, count: usize) -> Outcome {
        let objects = self.random.objects(count);
        self.push(Event::Policy {
            answer,
            request: self.asked,
            objects,
        })
    }

    /// Policy's answer with as many objects as its limits ask for.
    fn answer_well(&mut self, answer: PolicyAnswer) -> Outcome {
        let count = match (answer, self.asked.command) {
            (PolicyAnswer::Give, MODES) => 1 + self.random.below(MOST_AFTER_HEADER),
            _ => 0,
        };
        self.answer(answer, count)
    }

    fn give(&mut self) -> Outcome {
        self.answer_well(PolicyAnswer::Give)
    }

    fn sent(&mut self) {
        self.push(Event::Sent);
    }

    fn failed(&mut self) {
        self.push(Event::Failed);
    }

    fn sent_or_failed(&mut self) {
        if self.random.below(2) == 0 {
            self.sent();
        } else {
            self.failed();
        }
    }

    fn room(&mut self, room: u8) {
        self.push(Event::Room { room });
    }

    fn whole_room(&mut self) {
        self.room(WHOLE_ROOM);
    }

    fn load(&mut self, identity_count: usize, svids: Vec<u16>) -> Outcome {
        let identity = self.random.objects(identity_count);
        self.push(Event::Load { identity, svids })
    }
}
