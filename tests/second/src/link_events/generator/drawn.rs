//! Drawn events: exchanges of both sides that mostly come to their end, with more or less trouble on
//! the way.

use super::{Event, Generator};
use crate::call::Call;
use crate::messages::LAST_POSITION;
use crate::refusals::BLOCKED;
use crate::side::Side;

const JOURNEYS: usize = 40;
const STEPS: usize = 80;
/// One step in so many is trouble.
pub const TROUBLES: [usize; 5] = [2, 4, 10, 30, 100];

impl Generator {
    pub(super) fn drawn(&mut self) {
        for _ in 0..JOURNEYS {
            let trouble = self.random.one_of(&TROUBLES);
            self.steps(STEPS, trouble);
        }
        self.settle();
        for side in Side::BOTH {
            self.side = side;
            self.leave_all_modes();
            self.gather();
        }
    }

    pub(super) fn steps(&mut self, count: usize, trouble: usize) {
        for _ in 0..count {
            self.turn();
            match self.random.below(trouble) {
                0 => self.trouble(),
                _ => self.go_on(),
            }
        }
    }

    /// The side that waits goes on, but at times it is the other's turn; with nothing awaited, more
    /// often.
    fn turn(&mut self) {
        let waiting = self.system.waiting();
        let is_other = match waiting {
            Some(_) => self.random.is_rare(),
            None => self.random.below(3) == 0,
        };
        let side = waiting.unwrap_or(self.side);
        self.side = if is_other { side.other() } else { side };
    }

    /// What is on the way, or else a call.
    pub(super) fn go_on(&mut self) {
        match self.on_the_way() {
            Some(event) => {
                self.push(event);
            }
            None => self.drawn_call(),
        }
    }

    /// Mostly a next, for which every mode has to be left; with no candidate at times an enter or
    /// exit.
    fn drawn_call(&mut self) {
        if !self.has_candidate() && self.random.below(2) == 0 {
            self.drawn_mode();
        } else if self.ask_next().refusal == Some(BLOCKED) {
            self.leave_all_modes();
        }
    }

    /// Any event, most often one that is permitted.
    fn trouble(&mut self) {
        let events = Event::beside_calls();
        let event = self.random.one_of(&events);
        let permitted = events.into_iter();
        let permitted = permitted.filter(|event| self.system.permits(event));
        let permitted: Vec<Event> = permitted.collect();
        match self.random.below(10) {
            0..6 if !permitted.is_empty() => {
                let event = self.random.one_of(&permitted);
                self.push(event);
            }
            6 => self.asking(),
            7 => self.drawn_mode(),
            _ => {
                self.push(event);
            }
        }
    }

    /// Drop and start over are rare, or long lists would never be gathered.
    fn asking(&mut self) {
        let side = self.side;
        let calls = match self.random.is_rare() {
            true => [Call::Drop(side), Call::StartOver(side)],
            false => [Call::Next(side), Call::ProtocolError],
        };
        let call = self.random.one_of(&calls);
        self.push(Event::Call(call));
    }

    /// Enter or exit, mostly of a held SVID.
    pub(super) fn drawn_mode(&mut self) {
        let side = self.side;
        let mut svids = self.held_svids();
        if svids.is_empty() || self.random.is_rare() {
            svids.push(self.random.svid());
        }
        let svid = self.random.one_of(&svids);
        let position = self.random.byte() & LAST_POSITION;
        let enter = Call::Enter {
            side,
            svid,
            position,
        };
        let exit = Call::Exit {
            side,
            svid,
            position,
        };
        let call = self.random.one_of(&[enter, exit]);
        self.push(Event::Call(call));
    }

    pub(super) fn leave_all_modes(&mut self) {
        let side = self.side;
        for svid in self.held_svids() {
            if self.system.laptop().entered_count(side, svid) > 0 {
                let position = LAST_POSITION;
                self.push(Event::Call(Call::Exit {
                    side,
                    svid,
                    position,
                }));
                self.finish();
            }
        }
    }

    pub(super) fn held_svids(&self) -> Vec<u16> {
        let held = self.system.laptop().held(self.side);
        held.map(|held| held.svids.clone()).unwrap_or_default()
    }
}
