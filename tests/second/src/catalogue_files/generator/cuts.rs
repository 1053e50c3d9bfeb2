//! Sound files that stop too early.

use super::{bytes_of, Generator, CASE_L};
use crate::catalogue::{LEAST_OBJECTS, MOST_MODES};
use crate::messages::MOST_AFTER_HEADER;
use crate::record::Record;
use std::collections::BTreeSet;

/// Of the longest file: at every place near its ends, at every third SVID, and at drawn places.
const FIRST_PLACES: usize = 64;
const LAST_PLACES: usize = 40;
const EVERY: usize = 3;
const DRAWN_PLACES: usize = 40;

impl Generator {
    pub(super) fn cuts(&mut self) {
        self.cut_everywhere(&CASE_L);
        for records in self.short_and_middling() {
            self.cut_everywhere(&bytes_of(&records));
        }
        let longest_list = self.longest_list();
        self.cut_at(&bytes_of(&longest_list), &around_borders(&longest_list, 1));
        let longest = self.longest();
        let bytes = bytes_of(&longest);
        let svid_borders = around_borders(&longest, EVERY * (1 + MOST_MODES));
        let drawn = (0..DRAWN_PLACES).map(|_| self.random.below(bytes.len()));
        let places: BTreeSet<usize> = (0..FIRST_PLACES)
            .chain(bytes.len() - LAST_PLACES..bytes.len())
            .chain(svid_borders)
            .chain(drawn)
            .collect();
        self.cut_at(&bytes, &places);
    }

    fn short_and_middling(&mut self) -> Vec<Vec<Record>> {
        vec![
            self.sound(LEAST_OBJECTS, &[]),
            self.sound(MOST_AFTER_HEADER, &[]),
            self.sound(MOST_AFTER_HEADER, &[MOST_MODES; 2]),
            self.drawn_sound(3),
            self.sound(LEAST_OBJECTS, &[1; 12]),
            self.drawn_sound(13),
            self.sound(LEAST_OBJECTS + 1, &[MOST_MODES; 11]),
        ]
    }

    fn cut_everywhere(&mut self, bytes: &[u8]) {
        self.cut_at(bytes, &(0..bytes.len()).collect());
    }

    fn cut_at(&mut self, bytes: &[u8], places: &BTreeSet<usize>) {
        for &place in places {
            self.read(bytes[..place].to_vec());
        }
    }
}

/// Each of so many borders between records, a byte before it and a byte behind it.
fn around_borders(records: &[Record], every: usize) -> BTreeSet<usize> {
    (1..records.len())
        .step_by(every)
        .map(|count| bytes_of(&records[..count]).len())
        .flat_map(|border| border - 1..=border + 1)
        .filter(|&place| place < bytes_of(records).len())
        .collect()
}
