//! Runs and output buffers of other lengths than at the start, most of them too short.

use super::{Event, Generator};
use crate::catalogue::RUN_WORDS;
use crate::laptop_events::event::{Lengths, WHOLE_RUN};
use crate::messages::OBJECT_BYTES;
use crate::refusals::SHORT_RUN;
use crate::side::Side;

const ENOUGH_WORDS: u16 = RUN_WORDS as u16;
const ENOUGH_BYTES: u8 = OBJECT_BYTES as u8;

impl Generator {
    /// The event refused for each of the runs and for the output buffer, as far as it is lent them.
    pub(super) fn with_each_short_length(&mut self, event: &Event) {
        let (lent_runs, lent_output) = match event {
            Event::Message { .. } => (true, false),
            Event::Call(call) => (call.is_owners(), call.may_send()),
            _ => (false, false),
        };
        let side = event.side().unwrap_or(Side::Partner);
        if lent_runs {
            self.with_words(ENOUGH_WORDS - 1, ENOUGH_WORDS, event);
            self.with_words(ENOUGH_WORDS, ENOUGH_WORDS - 1, event);
        }
        if lent_output {
            self.lend(
                side,
                Lengths {
                    output: ENOUGH_BYTES - 1,
                    ..Lengths::WHOLE
                },
            );
            self.push(event.clone());
        }
        self.lend(side, Lengths::WHOLE);
    }

    fn with_words(&mut self, candidate: u16, held: u16, event: &Event) {
        let lengths = Lengths {
            candidate,
            held,
            ..Lengths::WHOLE
        };
        self.lend(event.side().unwrap_or(Side::Partner), lengths);
        self.push(event.clone());
    }

    pub(super) fn lend(&mut self, side: Side, lengths: Lengths) {
        self.push(Event::Lengths { side, lengths });
    }

    /// The event with drawn lengths, and once more with the whole ones if they were too short.
    pub(super) fn with_drawn_lengths(&mut self, event: &Event) {
        let lengths = self.drawn_lengths();
        let side = event.side().unwrap_or(Side::Partner);
        self.lend(side, lengths);
        let outcome = self.push(event.clone());
        self.lend(side, Lengths::WHOLE);
        if outcome.refusal == SHORT_RUN {
            self.push(event.clone());
        }
    }

    /// Any of the three is too short at times, and at times just long enough.
    fn drawn_lengths(&mut self) -> Lengths {
        let short = self.random.byte() % ENOUGH_BYTES;
        Lengths {
            output: self.random.one_of(&[short, ENOUGH_BYTES, 5, u8::MAX]),
            candidate: self.drawn_words(),
            held: self.drawn_words(),
        }
    }

    fn drawn_words(&mut self) -> u16 {
        let short = self.random.svid() % ENOUGH_WORDS;
        let short = self.random.one_of(&[short, ENOUGH_WORDS - 1, 0]);
        self.random
            .one_of(&[short, ENOUGH_WORDS, WHOLE_RUN + 1, u16::MAX])
    }
}
