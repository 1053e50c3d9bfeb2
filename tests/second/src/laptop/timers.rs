//! The ends of a wait without an answer: the three timers and the protocol error. They concern the
//! side that waits.

use super::{Accepted, Answer, Awaited, Laptop, Reason, Told};
use crate::messages::{ENTER, EXIT, IDENTITY, MODES};
use crate::refusals::NOT_TAKEN_NOW;
use std::ops::RangeInclusive;

impl Laptop {
    pub fn response_timer(&mut self) -> Answer {
        self.end_wait(IDENTITY..=MODES, Reason::Timer)
    }

    pub fn entry_timer(&mut self) -> Answer {
        self.end_wait(ENTER..=ENTER, Reason::Timer)
    }

    pub fn exit_timer(&mut self) -> Answer {
        self.end_wait(EXIT..=EXIT, Reason::Timer)
    }

    pub fn protocol_error(&mut self) -> Answer {
        self.end_wait(IDENTITY..=EXIT, Reason::ProtocolError)
    }

    /// Ends the wait for one of these commands, or refuses with 9. The candidate stays: while
    /// Identity is awaited there is none.
    fn end_wait(&mut self, commands: RangeInclusive<u8>, reason: Reason) -> Answer {
        let Some(Awaited { side, request }) = self.awaited else {
            return Err(NOT_TAKEN_NOW);
        };
        if !commands.contains(&request.command) {
            return Err(NOT_TAKEN_NOW);
        }
        self.awaited = None;
        Ok(match request.command {
            ENTER | EXIT => Accepted::telling(Told::Unmarked {
                side,
                request,
                reason,
            }),
            _ => Accepted::default(),
        })
    }
}
