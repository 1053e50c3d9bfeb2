//! Loading in every standing, with data inside and outside its limits.

use super::situation::STANDINGS;
use super::Generator;
use crate::dock::{LEAST_IDENTITY, MOST_IDENTITY, MOST_SVIDS};
use crate::refusals::ACCEPTED;

const IDENTITY_COUNTS: [usize; 9] = [0, 1, 2, 3, 4, 5, 6, 7, 255];
const LENGTHS: [usize; 13] = [0, 1, 2, 11, 12, 13, 24, 71, 72, 73, 74, 128, 255];
const LENGTHS_WITH_ZERO: [usize; 5] = [1, 2, 12, 13, MOST_SVIDS];

impl Generator {
    pub(super) fn loads(&mut self) {
        for situation in STANDINGS {
            for data in self.edges() {
                self.open_list();
                self.bring_to(situation);
                self.load_and_show(data);
                self.close();
            }
        }
        self.duplicates();
        self.zeros();
    }

    /// Every number of identity objects and every length of a list to try, then other faults.
    fn edges(&mut self) -> Vec<(usize, Vec<u16>)> {
        let mut edges = Vec::new();
        for identity in IDENTITY_COUNTS {
            let length = self.random.below(MOST_SVIDS + 1);
            edges.push((identity, self.random.different_svids(length)));
        }
        for length in LENGTHS {
            edges.push((LEAST_IDENTITY, self.random.different_svids(length)));
        }
        edges.push((
            LEAST_IDENTITY - 1,
            self.random.different_svids(MOST_SVIDS + 1),
        ));
        edges.push((MOST_IDENTITY + 1, vec![0]));
        edges.push((LEAST_IDENTITY, vec![0]));
        edges.push((LEAST_IDENTITY, vec![1, 1]));
        edges
    }

    /// Two equal SVIDs at every distance: the first and the last of a list, then two of a full one.
    fn duplicates(&mut self) {
        for distance in 1..MOST_SVIDS {
            self.duplicate(distance + 1, 0, distance);
            let first = self.random.below(MOST_SVIDS - distance);
            self.duplicate(MOST_SVIDS, first, distance);
        }
    }

    fn duplicate(&mut self, length: usize, first: usize, distance: usize) {
        let mut svids = self.random.different_svids(length);
        svids[first + distance] = svids[first];
        self.open_list();
        self.load_and_show((LEAST_IDENTITY, svids));
    }

    /// One SVID that is 0: the first, the last, and one between.
    fn zeros(&mut self) {
        for length in LENGTHS_WITH_ZERO {
            for place in [0, self.random.below(length), length - 1] {
                let mut svids = self.random.different_svids(length);
                svids[place] = 0;
                self.open_list();
                self.load_and_show((MOST_IDENTITY, svids));
            }
        }
    }

    /// Shows what a ready dock holds then.
    fn load_and_show(&mut self, (identity_count, svids): (usize, Vec<u16>)) {
        let accepted = self.load(identity_count, svids).refusal == ACCEPTED;
        if self.is_ready() {
            self.show_page();
            if accepted || self.random.is_rare() {
                self.identify();
            }
        }
    }
}
