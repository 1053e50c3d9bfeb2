//! Enter and exit at every position of SVIDs with one to six modes, with every end of the wait.

use super::{Generator, ANSWERS};
use crate::call::Call;
use crate::messages::{ACK, LAST_MODE_POSITION, LAST_POSITION};

const MODE_COUNTS: [usize; 6] = [1, 2, 3, 4, 5, 6];
/// Every position that an Enter or Exit can have, 0 and some that no header has.
const POSITIONS: [u8; 10] = [0, 1, 2, 3, 4, 5, 6, 7, 8, 255];

impl Generator {
    pub(super) fn modes(&mut self) {
        let svids = self.random.different_svids(MODE_COUNTS.len());
        let modes: Vec<(u16, usize)> = svids.iter().copied().zip(MODE_COUNTS).collect();
        self.hold(&modes);
        for &svid in &svids {
            for position in POSITIONS {
                self.every_end_of(Call::Enter {
                    side: self.side,
                    svid,
                    position,
                });
            }
            self.next();
        }
        self.push(Call::StartOver(self.side));
        for &svid in &svids {
            for position in POSITIONS
                .into_iter()
                .filter(|&other| other != LAST_POSITION)
            {
                self.every_end_of(Call::Exit {
                    side: self.side,
                    svid,
                    position,
                });
            }
        }
        for &svid in &svids {
            self.all_at_once(svid);
        }
    }

    /// Enters every mode and leaves them all with position 7.
    fn all_at_once(&mut self, svid: u16) {
        for position in 1..=LAST_MODE_POSITION {
            if self.enter(svid, position).sent.is_some() {
                self.acknowledge();
            }
        }
        self.every_end_of(Call::Exit {
            side: self.side,
            svid,
            position: LAST_POSITION,
        });
    }

    /// The call with every end of its wait, last an ACK, after which it comes once more.
    fn every_end_of(&mut self, call: Call) {
        let ends_without_mark = [Call::EntryTimer, Call::ExitTimer, Call::ProtocolError];
        if self.push(call).sent.is_none() {
            return;
        }
        for kind in ANSWERS.into_iter().filter(|&kind| kind != ACK) {
            self.answer_well(kind);
            self.push(call);
        }
        for end in ends_without_mark {
            self.push(end);
            self.push(call);
        }
        self.acknowledge();
        self.push(call);
    }
}
