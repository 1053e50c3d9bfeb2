//! How a system stands before the first event.

use super::System;
use crate::call::Call;
use crate::catalogue::RUN_WORDS;
use crate::laptop::Laptop;
use crate::lent_runs::LentRuns;
use crate::link_events::{Event, FarEnd, LinkEvent, Start};
use crate::side::{Side, Sides};

/// What becomes of a request without losses.
const EXCHANGE: [LinkEvent; 4] = [
    LinkEvent::RequestReaches,
    LinkEvent::Give,
    LinkEvent::AnswerArrives,
    LinkEvent::Sent,
];

impl System {
    pub fn begin(start: &Start) -> Self {
        let mut system = Self::before_old();
        for side in Side::BOTH {
            if start[side].holds_old {
                system.gather_old(side);
            }
        }
        let far_ends = Sides::each(|side| FarEnd::begin(&start[side]));
        System { far_ends, ..system }
    }

    /// A fresh laptop, and at both sides the dock of the old catalogue.
    fn before_old() -> Self {
        System {
            laptop: Laptop::fresh(),
            runs: Sides::each(|_| LentRuns::of(0, RUN_WORDS)),
            far_ends: Sides::each(|_| FarEnd::old()),
        }
    }

    fn gather_old(&mut self, side: Side) {
        while self.laptop.held(side).is_none() {
            self.take(&Event::Call(Call::Next(side)));
            for event in EXCHANGE {
                self.take(&Event::On(side, event));
            }
        }
    }
}
