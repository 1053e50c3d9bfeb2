//! Names for what events do to the edition of each side of a laptop end (02, R-5), to be counted.

mod names;

use crate::call::Call;
use crate::edition::Edition;
use crate::laptop::Candidate;
use crate::messages::{read, version_of, Message, ACK, ATTENTION, BUSY, ENTER, IDENTITY, NAK};
use crate::refusals::{ACCEPTED, NOT_AWAITED, NO_END, SHORT_RUN, VOIDED};
use crate::side::{Side, Sides};
use crate::two_sides::Step;
pub use names::names;

/// What is remembered of a side from one event to the next.
#[derive(Clone, Copy, Default)]
struct Memory {
    /// The side's edition before Identity last went out.
    before_identity: Edition,
    /// How that Identity came to nothing, if it did.
    without_ack: Option<&'static str>,
    /// Whether an Identity has had no answer, so that one may come late.
    has_unanswered: bool,
    /// How a candidate was last lost since Identity went out.
    lost: Option<&'static str>,
}

#[derive(Default)]
pub struct SideEditions {
    memories: Sides<Memory>,
}

impl SideEditions {
    /// A message from a side.
    pub fn of_message(&mut self, step: &Step, side: Side, bytes: &[u8]) -> Vec<String> {
        let at = step.before.edition(side);
        let message = match read(bytes) {
            _ if step.refusal == SHORT_RUN => return Vec::new(),
            Err(refusal) => return vec![names::unread(side, refusal, at)],
            Ok(message) => message,
        };
        let mut names = Vec::new();
        if step.refusal == ACCEPTED {
            let of_header = version_of(bytes);
            names.extend(of_header.map(|of_header| names::version(side, of_header)));
        }
        if message.command == ATTENTION {
            names.push(names::attention(side, message.edition, at));
        } else if step.refusal == NOT_AWAITED {
            names.extend(self.of_refused(step, side, &message));
        } else {
            names.extend(self.of_answer(step, side, &message));
        }
        names
    }

    /// An answer that is not awaited, or a request.
    fn of_refused(&mut self, step: &Step, side: Side, message: &Message) -> Option<String> {
        if *step.before.candidate(side) != *step.after.candidate(side) {
            self.memories[side].lost = Some(names::LATE_PAGE);
        }
        let is_identity = (message.command, message.kind) == (IDENTITY, ACK);
        let at = step.before.edition(side);
        is_identity.then(|| names::late_identity(side, message.edition, at))
    }

    /// An awaited answer, also one that is refused 8 or 14.
    fn of_answer(&mut self, step: &Step, side: Side, message: &Message) -> Option<String> {
        let at = step.before.edition(side);
        let memory = &mut self.memories[side];
        match step.refusal {
            VOIDED => memory.lost = Some(names::VOIDED),
            NO_END => memory.lost = Some(names::NO_END),
            _ => {}
        }
        if message.command != IDENTITY {
            return Some(names::answer(side, message, at));
        }
        let was_unanswered = std::mem::take(&mut memory.has_unanswered);
        memory.without_ack = match message.kind {
            NAK => Some(names::NAK),
            BUSY => Some(names::BUSY),
            _ => None,
        };
        (message.kind == ACK).then(|| names::identity(side, message.edition, was_unanswered))
    }

    /// A call, with the header that it sent.
    pub fn of_call(&mut self, step: &Step, call: Call, sent: Option<u32>) -> Vec<String> {
        let Some(side) = call.side() else {
            self.end_wait(step, call);
            return Vec::new();
        };
        match (step.refusal, sent) {
            (ACCEPTED, Some(header)) => self.of_sent(step, side, header),
            (ACCEPTED, None) => {
                if *step.before.candidate(side) != Candidate::None {
                    self.memories[side].lost = Some(names::DROP);
                }
                Vec::new()
            }
            (refusal, _) => vec![names::refused(side, refusal, step.before.edition(side))],
        }
    }

    /// A timer or a protocol error that ends the wait for Identity.
    fn end_wait(&mut self, step: &Step, call: Call) {
        let awaited = step.before.awaited().filter(|_| step.refusal == ACCEPTED);
        let Some(awaited) = awaited.filter(|awaited| awaited.request.command == IDENTITY) else {
            return;
        };
        let memory = &mut self.memories[awaited.side];
        memory.has_unanswered = true;
        memory.without_ack = Some(match call {
            Call::ProtocolError => names::PROTOCOL_ERROR,
            _ => names::TIMER,
        });
    }

    fn of_sent(&mut self, step: &Step, side: Side, header: u32) -> Vec<String> {
        let Ok(request) = read(&header.to_le_bytes()) else {
            return Vec::new();
        };
        let memory = &mut self.memories[side];
        let edition = request.edition;
        let mut names = vec![names::request(side, request.command, edition)];
        if request.command == IDENTITY {
            let before_identity = step.before.edition(side);
            names.push(names::identity_sent(side, before_identity));
            *memory = Memory {
                before_identity,
                has_unanswered: memory.has_unanswered,
                ..Memory::default()
            };
            return names;
        }
        let others = step.before.edition(side.other());
        names.push(names::beside(side, edition, others));
        if request.command == ENTER {
            let without_ack = memory.without_ack;
            let end =
                without_ack.map(|end| names::enter_after_end(side, memory.before_identity, end));
            names.extend(end);
            names.extend(
                memory
                    .lost
                    .map(|how| names::enter_after_loss(side, edition, how)),
            );
        }
        names
    }
}
