//! Sound files with one byte changed, left out or put in.

use super::{bytes_of, Generator, CASE_L};

/// Kinds, their neighbours, and the edges of a byte.
const VALUES: [u8; 16] = [
    0x00, 0x01, 0x02, 0x03, 0x04, 0x05, 0x06, 0x07, 0x0F, 0x10, 0x11, 0x1F, 0x20, 0x21, 0x80, 0xFF,
];
/// Places that are drawn in the longest list, and in the longest file.
const OF_LONGEST_LIST: usize = 120;
const OF_LONGEST: usize = 60;

impl Generator {
    pub(super) fn changes(&mut self) {
        let short = self.sound(4, &[2, 2]);
        for bytes in [&CASE_L[..], &bytes_of(&short)] {
            for place in 0..bytes.len() {
                self.every_value(bytes, place);
                self.other_length(bytes, place);
            }
        }
        let middling = self.drawn_sound(13);
        let bytes = bytes_of(&middling);
        for place in 0..bytes.len() {
            self.some_values(&bytes, place);
        }
        let longest_list = self.longest_list();
        self.drawn_places(&bytes_of(&longest_list), OF_LONGEST_LIST);
        let longest = self.longest();
        self.drawn_places(&bytes_of(&longest), OF_LONGEST);
    }

    fn every_value(&mut self, bytes: &[u8], place: usize) {
        for value in VALUES {
            self.changed(bytes, place, value);
        }
    }

    fn some_values(&mut self, bytes: &[u8], place: usize) {
        let kind = self.random.one_of(&VALUES);
        let one_bit_off = bytes[place] ^ 1 << self.random.below(8);
        let drawn = self.random.byte();
        for value in [kind, one_bit_off, drawn] {
            self.changed(bytes, place, value);
        }
    }

    fn changed(&mut self, bytes: &[u8], place: usize, value: u8) {
        let mut bytes = bytes.to_vec();
        bytes[place] = value;
        self.read(bytes);
    }

    fn other_length(&mut self, bytes: &[u8], place: usize) {
        let mut shorter = bytes.to_vec();
        shorter.remove(place);
        self.read(shorter);
        let mut longer = bytes.to_vec();
        longer.insert(place, self.random.one_of(&VALUES));
        self.read(longer);
    }

    fn drawn_places(&mut self, bytes: &[u8], count: usize) {
        for _ in 0..count {
            let place = self.random.below(bytes.len());
            let value = self.drawn_value();
            self.changed(bytes, place, value);
        }
    }
}
