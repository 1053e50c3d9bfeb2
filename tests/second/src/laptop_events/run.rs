//! A laptop with the runs and buffers that are lent to it, driven by events.

use super::event::{Event, Lengths, MOST_CATALOGUE_ROOM, WHOLE_RUN};
use crate::call::Call;
use crate::laptop::{Answer, Laptop, Runs, Told};
use crate::lent_runs::LentRuns;
use crate::side::{Side, Sides};

/// What an output buffer holds before a call, and each byte of a run at the start.
const UNWRITTEN: u8 = 0xEE;
const UNWRITTEN_WORD: u32 = u32::from_le_bytes([UNWRITTEN; 4]);

pub struct Run {
    laptop: Laptop,
    runs: Sides<LentRuns>,
    lengths: Sides<Lengths>,
}

/// What an event led to.
#[derive(Clone, Debug, Default, PartialEq, Eq)]
pub struct Outcome {
    pub refusal: u8,
    /// The bytes to send, if any.
    pub sent: Vec<u8>,
    /// The whole output buffer after the call, if one was lent.
    pub output: Option<Vec<u8>>,
    pub told: Option<Told>,
    /// The bytes of the held catalogue that were written.
    pub catalogue: Option<Vec<u8>>,
    pub report: Option<u32>,
}

impl Outcome {
    /// The header of what is sent, which is a request of one object.
    pub fn header(&self) -> Option<u32> {
        let bytes = self.sent.first_chunk();
        bytes.map(|bytes| u32::from_le_bytes(*bytes))
    }
}

impl Default for Run {
    fn default() -> Self {
        Run {
            laptop: Laptop::fresh(),
            runs: Sides::each(|_| LentRuns::of(UNWRITTEN_WORD, usize::from(WHOLE_RUN))),
            lengths: Sides::each(|_| Lengths::WHOLE),
        }
    }
}

impl Run {
    pub fn laptop(&self) -> &Laptop {
        &self.laptop
    }

    /// Both whole runs of a side, however much of them is lent.
    pub fn runs(&self, side: Side) -> &LentRuns {
        &self.runs[side]
    }

    pub fn take(&mut self, event: &Event) -> Outcome {
        match event {
            Event::Message { side, bytes } => self.message(*side, bytes),
            Event::Call(call) => self.call(*call),
            Event::Report { side, svid } => Outcome {
                report: Some(self.laptop.entered_count(*side, *svid)),
                ..Outcome::default()
            },
            Event::WriteCatalogue { side, room } => self.write_catalogue(*side, *room),
            Event::Lengths { side, lengths } => {
                self.lengths[*side] = *lengths;
                Outcome::default()
            }
        }
    }

    fn message(&mut self, side: Side, bytes: &[u8]) -> Outcome {
        let answer = self.lent(side, |laptop, runs| laptop.message(side, bytes, runs));
        outcome(answer, Vec::new())
    }

    /// A timer or a protocol error is lent nothing, so any side serves.
    fn call(&mut self, call: Call) -> Outcome {
        let side = call.side().unwrap_or(Side::Partner);
        let mut output = vec![UNWRITTEN; usize::from(self.lengths[side].output)];
        let answer = self.lent(side, |laptop, runs| call.make(laptop, runs, &mut output));
        let length = answer.map_or(0, |accepted| accepted.length);
        Outcome {
            output: call.may_send().then(|| output.clone()),
            ..outcome(answer, output[..length].to_vec())
        }
    }

    /// Makes the call with as much of the side's runs as is lent.
    fn lent(&mut self, side: Side, call: impl FnOnce(&mut Laptop, &mut Runs) -> Answer) -> Answer {
        let (runs, lengths) = (&mut self.runs[side], self.lengths[side]);
        let runs = &mut Runs {
            held: &mut runs.held[..lent_words(lengths.held)],
            candidate: &mut runs.candidate[..lent_words(lengths.candidate)],
        };
        call(&mut self.laptop, runs)
    }

    fn write_catalogue(&self, side: Side, room: u16) -> Outcome {
        let mut output = vec![UNWRITTEN; usize::from(room.min(MOST_CATALOGUE_ROOM))];
        let held = &self.runs[side].held[..lent_words(self.lengths[side].held)];
        let result = self.laptop.write_catalogue(side, held, &mut output);
        Outcome {
            refusal: result.err().unwrap_or_default(),
            catalogue: result.ok().map(|length| output[..length].to_vec()),
            output: Some(output),
            ..Outcome::default()
        }
    }
}

fn lent_words(words: u16) -> usize {
    usize::from(words.min(WHOLE_RUN))
}

fn outcome(answer: Answer, sent: Vec<u8>) -> Outcome {
    Outcome {
        refusal: answer.err().unwrap_or_default(),
        sent,
        told: answer.ok().and_then(|accepted| accepted.told),
        ..Outcome::default()
    }
}
