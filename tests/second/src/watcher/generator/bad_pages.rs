//! Pages of every number of objects, with zeros in all sorts of places, on empty lists and others;
//! pages that repeat an SVID or are nearly a repeat; lists about as long as they can be.

use super::Generator;
use crate::messages::MOST_AFTER_HEADER;
use crate::pages::{page, MOST_SVIDS, PAGE_SVIDS};
use std::ops::Range;

impl Generator {
    pub(super) fn bad_pages(&mut self) {
        for pages in [0, 1] {
            for objects in 1..=MOST_AFTER_HEADER {
                self.zeros(pages, 2 * objects);
            }
            self.repeated_svids(pages);
        }
        self.near_repeats();
        self.longest_lists();
    }

    /// No zero, one zero at each place, and each number of zeros at the end.
    fn zeros(&mut self, pages: usize, halves: usize) {
        self.page_with_zeros(pages, halves, 0..0);
        for place in 0..halves {
            self.page_with_zeros(pages, halves, place..place + 1);
            self.page_with_zeros(pages, halves, place..halves);
        }
    }

    pub(super) fn page_with_zeros(&mut self, pages: usize, halves: usize, zeros: Range<usize>) {
        let svids = self.random.different_svids(pages * PAGE_SVIDS + halves);
        let (gathered, rest) = svids.split_at(pages * PAGE_SVIDS);
        let mut rest = rest.to_vec();
        rest[zeros].fill(0);
        self.turn();
        self.gather(gathered, pages);
        self.page(&objects(&rest));
    }

    /// An SVID of the page twice, or one gathered before, on a full page and on one that ends.
    fn repeated_svids(&mut self, pages: usize) {
        for (place, other) in [(0, 1), (1, 0), (10, 0), (5, 10)] {
            for length in [PAGE_SVIDS, PAGE_SVIDS - 1] {
                let svids = self.random.different_svids((pages + 1) * PAGE_SVIDS);
                let (gathered, rest) = svids.split_at(pages * PAGE_SVIDS);
                let mut rest = rest[..length].to_vec();
                rest[place] = *gathered.get(other).unwrap_or(&rest[other]);
                self.turn();
                self.gather(gathered, pages);
                self.page(&page(&rest, 0).objects);
            }
        }
    }

    /// Of two pages gathered, every twelve in a row, of which only the last are a repeat, and every
    /// last few.
    fn near_repeats(&mut self) {
        let svids = self.random.different_svids(2 * PAGE_SVIDS);
        let twelves = svids.windows(PAGE_SVIDS);
        let last_few = (1..MOST_AFTER_HEADER).map(|count| &svids[svids.len() - 2 * count..]);
        for halves in twelves.chain(last_few) {
            self.turn();
            self.gather(&svids, 2);
            self.page(&objects(halves));
            self.next();
        }
    }

    /// Sixty or 72 SVIDs gathered, and then a page of any length.
    fn longest_lists(&mut self) {
        let svids = self.random.different_svids(MOST_SVIDS + PAGE_SVIDS);
        for pages in [5, 6] {
            for length in 0..=PAGE_SVIDS {
                self.turn();
                let (gathered, rest) = svids.split_at(pages * PAGE_SVIDS);
                self.gather(gathered, pages);
                self.page(&page(&rest[..length], 0).objects);
            }
        }
    }
}

pub fn objects(halves: &[u16]) -> Vec<u32> {
    halves
        .chunks(2)
        .map(|pair| u32::from(pair[0]) << u16::BITS | u32::from(pair[1]))
        .collect()
}
