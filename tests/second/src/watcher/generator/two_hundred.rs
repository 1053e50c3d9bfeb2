//! Gatherings of two hundred pages, most of them repeats: the last ends the list, does not, or is
//! bad. In a short stream there are 199, 200 or 201.

use super::Generator;
use crate::edition::Edition;
use crate::messages::ACK;
use crate::pages::{page, PAGE_SVIDS};

const PAGES_BEFORE: usize = 199;
const FULL_PAGES: usize = 5;
/// How many sorts of last page there are.
pub const LASTS: usize = 5;
/// That of the dock with each last page; with those that are refused it is below ours.
const EDITIONS: [Edition; LASTS] = [
    Edition::TwoOne,
    Edition::OneZero,
    Edition::TwoZero,
    Edition::OneZero,
    Edition::TwoZero,
];

impl Generator {
    pub(super) fn two_hundred(&mut self) {
        let svids = self.svids_for_two_hundred();
        for (last, edition) in lasts(&svids).iter().zip(EDITIONS) {
            self.turn();
            self.open_at(edition);
            self.repeats(&svids, PAGES_BEFORE);
            self.page(last);
            self.show_edition();
            self.next();
        }
    }

    /// The last page of a sort is the 200th, or after all sorts the 199th. One more comes unasked.
    pub(super) fn about_two_hundred(&mut self, sort: usize) {
        let svids = self.svids_for_two_hundred();
        let last = &lasts(&svids)[sort % LASTS];
        self.open();
        self.repeats(&svids, PAGES_BEFORE - sort / LASTS);
        self.page(last);
        self.answer(ACK, last);
        self.next();
    }

    fn svids_for_two_hundred(&mut self) -> Vec<u16> {
        self.random.different_svids((FULL_PAGES + 1) * PAGE_SVIDS)
    }

    /// Five full pages of an open list, and then the last of them again until so many are counted.
    fn repeats(&mut self, svids: &[u16], pages: usize) {
        let gathered = &svids[..FULL_PAGES * PAGE_SVIDS];
        let repeat = page(gathered, FULL_PAGES - 1).objects;
        self.pages(gathered, FULL_PAGES);
        for _ in FULL_PAGES..pages {
            if self.random.is_rare() {
                self.hinder();
            }
            self.page(&repeat);
        }
    }
}

/// Two that end the list, a full page, a repeat, and a bad one.
fn lasts(svids: &[u16]) -> [Vec<u32>; LASTS] {
    let (gathered, more) = svids.split_at(FULL_PAGES * PAGE_SVIDS);
    [
        page(&more[..1], 0).objects,
        page(more, 0).objects,
        page(gathered, FULL_PAGES - 1).objects,
        page(&gathered[..1], 0).objects,
        vec![0],
    ]
}
