//! The cases of 01 that are the laptop's: case L, and cases 9 to 12.

use super::Generator;
use crate::messages::{ACK, NAK};
use crate::pages::page;

impl Generator {
    pub(super) fn cases(&mut self) {
        self.next();
        self.answer(ACK, &[1, 2, 3]);
        self.page(&[0xFF01_0000]);
        self.next();
        self.answer(ACK, &[0x0000_0405]);
        self.enter(0xFF01, 1);
        self.acknowledge();
        self.open();
        self.page(&[0x0001_0000, 0x0002_0000]);
        let thirteen: Vec<u16> = (1..=13).collect();
        self.gather(&thirteen, 1);
        self.page(&page(&thirteen, 0).objects);
        self.page(&page(&thirteen, 1).objects);
        self.gather(&thirteen, 1);
        self.next();
        self.answer_well(NAK);
    }
}
