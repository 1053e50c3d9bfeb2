//! A laptop with all that is lent to it, driven by events.

use super::Event;
use crate::catalogue::{MOST_CATALOGUE_BYTES, RUN_WORDS};
use crate::laptop::{Answer, Laptop, Told};
use crate::lent_runs::LentRuns;
use crate::messages::{bytes_of, OBJECT_BYTES};
use crate::refusals::ACCEPTED;
use crate::side::{Side, Sides};

pub struct Run {
    laptop: Laptop,
    runs: Sides<LentRuns>,
    /// Room for a request, which is one object.
    buffer: [u8; OBJECT_BYTES],
}

/// What an event led to.
#[derive(Clone, Copy, Debug, PartialEq, Eq)]
pub struct Outcome {
    pub refusal: u8,
    /// The header of the request to send, if any.
    pub sent: Option<u32>,
    pub told: Option<Told>,
}

impl Default for Run {
    fn default() -> Self {
        Run {
            laptop: Laptop::fresh(),
            runs: Sides::each(|_| LentRuns::of(0, RUN_WORDS)),
            buffer: [0; OBJECT_BYTES],
        }
    }
}

impl Run {
    pub fn laptop(&self) -> &Laptop {
        &self.laptop
    }

    /// The bytes of a side's held catalogue.
    pub fn held_bytes(&self, side: Side) -> Option<Vec<u8>> {
        let mut bytes = [0; MOST_CATALOGUE_BYTES];
        let held_run = &self.runs[side].held;
        let written = self.laptop.write_catalogue(side, held_run, &mut bytes);
        Some(bytes[..written.ok()?].to_vec())
    }

    pub fn take(&mut self, event: &Event) -> Outcome {
        match self.attempt(event) {
            Ok(accepted) => Outcome {
                refusal: ACCEPTED,
                sent: (accepted.length > 0).then(|| u32::from_le_bytes(self.buffer)),
                told: accepted.told,
            },
            Err(refusal) => Outcome {
                refusal,
                sent: None,
                told: None,
            },
        }
    }

    fn attempt(&mut self, event: &Event) -> Answer {
        let runs = &mut self.runs[event.side().unwrap_or(Side::Partner)].whole();
        match event {
            Event::Message { side, objects } => {
                self.laptop.message(*side, &bytes_of(objects), runs)
            }
            Event::Call(call) => call.make(&mut self.laptop, runs, &mut self.buffer),
        }
    }
}
