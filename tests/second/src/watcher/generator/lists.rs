//! Whole gatherings of 0 to 72 SVIDs, some pages of which come twice, after BUSY or after a timer.

use super::Generator;
use crate::call::Call;
use crate::messages::{ACK, BUSY, MOST_AFTER_HEADER, NAK};
use crate::pages::{page, MOST_SVIDS, PAGE_SVIDS};
use crate::side::Side;

impl Generator {
    /// Each length on one side, which another seed gives to the other.
    pub(super) fn lists(&mut self, seed: u64) {
        for length in 0..=MOST_SVIDS {
            self.side = side_of_list(length, seed);
            self.whole_list(length);
        }
    }

    pub(super) fn whole_list(&mut self, length: usize) {
        let svids = self.random.different_svids(length);
        self.open();
        self.hinder();
        if svids.is_empty() {
            self.next();
            self.answer_well(NAK);
        }
        for number in 0..page_count(length) {
            self.hinder();
            self.page(&page(&svids, number).objects);
            let ends_list = number == length / PAGE_SVIDS;
            if !ends_list && self.random.below(2) == 0 {
                self.page(&page(&svids, number).objects);
            }
        }
        self.modes_of_list(length);
    }

    fn modes_of_list(&mut self, length: usize) {
        for _ in 0..length {
            if self.random.is_rare() {
                self.hinder();
            }
            self.next();
            let count = 1 + self.random.below(MOST_AFTER_HEADER);
            let objects = self.random.objects(count);
            self.answer(ACK, &objects);
        }
    }

    /// At times a request that comes to nothing.
    pub(super) fn hinder(&mut self) {
        let end = match self.random.below(4) {
            0 => {
                self.next();
                self.answer_well(BUSY);
                return;
            }
            1 => Call::ResponseTimer,
            2 => Call::ProtocolError,
            _ => return,
        };
        self.next();
        self.push(end);
    }
}

/// An empty list has no pages.
fn page_count(length: usize) -> usize {
    match length {
        0 => 0,
        _ => length / PAGE_SVIDS + 1,
    }
}

/// With an even seed the even lengths are the partner's, and with an odd one the cable's.
pub fn side_of_list(length: usize, seed: u64) -> Side {
    match length % 2 == seed as usize % 2 {
        true => Side::Partner,
        false => Side::Cable,
    }
}
