//! Identities that come to nothing after a list was opened: modes of what is held are then entered at
//! our edition, of a dock that may speak an older one.

use super::short::FEW_SVIDS;
use super::{Event, Generator, LinkEvent, WAIT_ENDS};
use crate::call::Call;

/// What becomes of an Identity that comes to nothing.
#[derive(Clone, Copy)]
enum InVain {
    Busy,
    /// The request is lost.
    Lost(Event),
    /// The answer comes late, with nothing awaited.
    Late(Event),
}

impl InVain {
    const ALL: [InVain; 5] = [
        InVain::Busy,
        InVain::Lost(WAIT_ENDS[0]),
        InVain::Lost(WAIT_ENDS[1]),
        InVain::Late(WAIT_ENDS[0]),
        InVain::Late(WAIT_ENDS[1]),
    ];
}

impl Generator {
    /// Before them, a mode is entered at the dock's edition.
    pub(super) fn each_identity_in_vain(&mut self) {
        self.enter_and_exit();
        for in_vain in InVain::ALL {
            self.identity_in_vain(in_vain);
        }
    }

    /// With a list of few SVIDs held, unless an old one is.
    pub(super) fn few_in_vain(&mut self, length: usize) {
        if self.held_svids().is_empty() && length <= FEW_SVIDS {
            self.gather();
        }
        for _ in 0..2 {
            let in_vain = self.random.one_of(&InVain::ALL);
            self.identity_in_vain(in_vain);
        }
    }

    /// With nothing awaited any more, a timer is not permitted.
    fn identity_in_vain(&mut self, in_vain: InVain) {
        self.open();
        self.push(Event::Call(Call::StartOver(self.side)));
        match in_vain {
            InVain::Busy => {
                self.happen(LinkEvent::RequestReaches);
                self.happen(LinkEvent::Busy);
            }
            InVain::Lost(end) => {
                self.happen(LinkEvent::RequestLost);
                self.push(end);
            }
            InVain::Late(end) => {
                self.happen(LinkEvent::RequestReaches);
                self.happen(LinkEvent::Give);
                self.push(end);
            }
        }
        self.finish();
        self.push(Event::Timer);
        self.enter_and_exit();
    }

    /// The first mode of what is held.
    pub(super) fn enter_and_exit(&mut self) {
        let (side, position) = (self.side, 1);
        let Some(&svid) = self.held_svids().first() else {
            return;
        };
        let enter = Call::Enter {
            side,
            svid,
            position,
        };
        let exit = Call::Exit {
            side,
            svid,
            position,
        };
        for call in [enter, exit] {
            self.push(Event::Call(call));
            self.finish();
        }
    }
}
