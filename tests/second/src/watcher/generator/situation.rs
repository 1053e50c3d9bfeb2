//! The situations of a laptop end, by candidate and wait, and the owner's calls and timers in each.

use super::{Event, Generator};
use crate::call::Call;
use crate::messages::LAST_POSITION;
use crate::pages::PAGE_SVIDS;
use crate::side::Side;

pub const FIRST: u16 = 0xFF01;
pub const SECOND: u16 = 0x8087;
const LISTED: [u16; 2] = [FIRST, SECOND];
const UNLISTED: u16 = 0x0003;

#[derive(Clone, Copy, PartialEq, Eq)]
pub enum Situation {
    NoCandidate,
    ListOpen,
    PageGathered,
    ListDone,
    ModesBegun,
    Entered,
    AwaitsIdentity,
    AwaitsFirstPage,
    AwaitsPage,
    AwaitsModes,
    AwaitsLastModes,
    AwaitsEnter,
    AwaitsExit,
    AwaitsExitOfAll,
}

pub const IDLE: [Situation; 6] = [
    Situation::NoCandidate,
    Situation::ListOpen,
    Situation::PageGathered,
    Situation::ListDone,
    Situation::ModesBegun,
    Situation::Entered,
];
pub const WAITING: [Situation; 8] = [
    Situation::AwaitsIdentity,
    Situation::AwaitsFirstPage,
    Situation::AwaitsPage,
    Situation::AwaitsModes,
    Situation::AwaitsLastModes,
    Situation::AwaitsEnter,
    Situation::AwaitsExit,
    Situation::AwaitsExitOfAll,
];

pub const TIMERS: [Call; 4] = [
    Call::ResponseTimer,
    Call::EntryTimer,
    Call::ExitTimer,
    Call::ProtocolError,
];
const NAMED_MODES: [(u16, u8); 8] = [
    (FIRST, 1),
    (FIRST, 2),
    (FIRST, 0),
    (FIRST, LAST_POSITION),
    (SECOND, 1),
    (SECOND, LAST_POSITION),
    (UNLISTED, 1),
    (UNLISTED, LAST_POSITION),
];

impl Generator {
    /// Every event but a message, the owner's calls for both sides, in every situation.
    pub(super) fn calls_everywhere(&mut self) {
        let calls = [all_calls(self.side), all_calls(self.side.other())].concat();
        for situation in IDLE.into_iter().chain(WAITING) {
            self.everything_in(situation, &calls);
        }
    }

    /// Each of the events in the situation. After one that changes the laptop, and after the last,
    /// comes a next, which shows what the laptop has come to.
    pub(super) fn everything_in(&mut self, situation: Situation, events: &[Event]) {
        self.set_up(situation);
        for event in events {
            let before = self.run.laptop().clone();
            self.push(event.clone());
            if *self.run.laptop() != before {
                self.next();
                self.set_up(situation);
            }
        }
        self.next();
    }

    pub(super) fn set_up(&mut self, situation: Situation) {
        self.settle();
        match situation {
            Situation::NoCandidate => {}
            Situation::ListOpen => self.open(),
            Situation::PageGathered => {
                let svids = self.random.different_svids(PAGE_SVIDS);
                self.gather(&svids, 1);
            }
            Situation::ListDone => self.list(&LISTED),
            Situation::ModesBegun => {
                self.set_up(Situation::AwaitsModes);
                self.acknowledge();
            }
            Situation::Entered => {
                self.set_up(Situation::AwaitsEnter);
                self.acknowledge();
            }
            Situation::AwaitsEnter => self.await_enter(),
            Situation::AwaitsExit => self.await_exit(1),
            Situation::AwaitsExitOfAll => self.await_exit(LAST_POSITION),
            Situation::AwaitsIdentity => self.await_after(Situation::NoCandidate),
            Situation::AwaitsFirstPage => self.await_after(Situation::ListOpen),
            Situation::AwaitsPage => self.await_after(Situation::PageGathered),
            Situation::AwaitsModes => self.await_after(Situation::ListDone),
            Situation::AwaitsLastModes => self.await_after(Situation::ModesBegun),
        }
    }

    fn await_after(&mut self, situation: Situation) {
        self.set_up(situation);
        self.next();
    }

    fn await_enter(&mut self) {
        if self.held_svids() != LISTED {
            self.hold(&[(FIRST, 2), (SECOND, 1)]);
        }
        self.enter(FIRST, 1);
    }

    fn await_exit(&mut self, position: u8) {
        self.set_up(Situation::Entered);
        self.exit(FIRST, position);
    }
}

/// Every event but a message, the owner's calls for one side.
pub fn all_calls(side: Side) -> Vec<Event> {
    let asking = [Call::Next(side), Call::StartOver(side), Call::Drop(side)];
    let modes = NAMED_MODES.iter().flat_map(|&(svid, position)| {
        [
            Call::Enter {
                side,
                svid,
                position,
            },
            Call::Exit {
                side,
                svid,
                position,
            },
        ]
    });
    let calls = asking.into_iter().chain(TIMERS).chain(modes);
    calls.map(Event::from).collect()
}
