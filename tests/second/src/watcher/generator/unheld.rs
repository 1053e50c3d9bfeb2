//! Enter and exit before there is a held catalogue.

use super::Generator;

const POSITIONS: [u8; 5] = [0, 1, 6, 7, 255];

impl Generator {
    pub(super) fn unheld(&mut self) {
        self.enter_and_exit();
        self.next();
        self.enter_and_exit();
        self.acknowledge();
        self.enter_and_exit();
        self.page(&[0x0001_0000]);
        self.enter_and_exit();
        self.settle();
    }

    fn enter_and_exit(&mut self) {
        for svid in [0, 1] {
            for position in POSITIONS {
                self.enter(svid, position);
                self.exit(svid, position);
            }
        }
    }
}
