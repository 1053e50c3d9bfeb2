//! A dock and its output buffer, driven by events.

use super::Event;
use crate::dock::{Dock, Standing};
use crate::messages::bytes_of;
use crate::refusals::ACCEPTED;
use crate::stream::UNWRITTEN;

/// Room for the longest message: what the output buffer has at the start.
pub const WHOLE_ROOM: u8 = 28;

pub const READY: &str = "ready";
pub const ASKING: &str = "asking";
pub const SENDING: &str = "sending";

pub struct Run {
    dock: Dock,
    buffer: Vec<u8>,
}

/// What an event led to.
#[derive(Clone, Copy, Debug, PartialEq, Eq)]
pub struct Outcome {
    pub refusal: u8,
    /// The number of bytes to send, 0 if none.
    pub length: usize,
}

impl Default for Run {
    fn default() -> Self {
        Run {
            dock: Dock::fresh(),
            buffer: vec![UNWRITTEN; usize::from(WHOLE_ROOM)],
        }
    }
}

impl Run {
    pub fn dock(&self) -> &Dock {
        &self.dock
    }

    pub fn buffer(&self) -> &[u8] {
        &self.buffer
    }

    /// The word of the lines for the dock's standing.
    pub fn standing(&self) -> &'static str {
        match self.dock.standing() {
            Standing::Ready => READY,
            Standing::Asking(_) => ASKING,
            Standing::Sending { .. } => SENDING,
        }
    }

    pub fn take(&mut self, event: &Event) -> Outcome {
        match self.attempt(event) {
            Ok(length) => Outcome {
                refusal: ACCEPTED,
                length,
            },
            Err(refusal) => Outcome { refusal, length: 0 },
        }
    }

    fn attempt(&mut self, event: &Event) -> Result<usize, u8> {
        let Run { dock, buffer } = self;
        buffer.fill(UNWRITTEN);
        match event {
            Event::Objects { objects } => dock.message(&bytes_of(objects), buffer),
            Event::Bytes { bytes } => dock.message(bytes, buffer),
            Event::Load { identity, svids } => dock.load(identity, svids).map(|()| 0),
            Event::Policy {
                answer,
                request,
                objects,
            } => dock.policy(*answer, *request, objects, buffer),
            Event::Sent => dock.sent().map(|()| 0),
            Event::Failed => dock.failed().map(|()| 0),
            Event::Room { room } => {
                buffer.resize(usize::from(*room), UNWRITTEN);
                Ok(0)
            }
        }
    }
}
