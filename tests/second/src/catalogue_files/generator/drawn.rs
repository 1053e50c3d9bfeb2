//! Drawn bytes: with nothing sound in them, of kinds alone, and sound files damaged several times.

use super::{bytes_of, Generator};
use crate::catalogue::LEAST_OBJECTS;
use crate::record::{Record, END_KIND, MODE_KIND, SVID_KIND};

/// The known kinds, those of short records twice.
const KINDS: [u8; 10] = [0x00, 0x00, 0x03, 0x04, 0x05, 0x06, 0x10, 0x10, 0x20, 0x20];
const DRAWN_OF_EACH: usize = 400;
const MOST_DRAWN: usize = 64;
const MOST_DAMAGES: usize = 3;

impl Generator {
    pub(super) fn drawn(&mut self) {
        for _ in 0..DRAWN_OF_EACH {
            let length = self.random.below(MOST_DRAWN + 1);
            let bytes = self.drawn_bytes(length);
            self.read(bytes);
            let kinds = self.drawn_kinds();
            self.read(kinds.clone());
            let identity = Record::Identity(self.random.objects(LEAST_OBJECTS));
            self.read([identity.bytes(), kinds].concat());
            self.damaged();
        }
    }

    pub(super) fn drawn_bytes(&mut self, count: usize) -> Vec<u8> {
        (0..count).map(|_| self.random.byte()).collect()
    }

    /// Often a kind.
    pub(super) fn drawn_value(&mut self) -> u8 {
        let drawn = self.random.byte();
        self.random.one_of(&[drawn, END_KIND, SVID_KIND, MODE_KIND])
    }

    fn drawn_kinds(&mut self) -> Vec<u8> {
        let length = self.random.below(MOST_DRAWN + 1);
        (0..length).map(|_| self.random.one_of(&KINDS)).collect()
    }

    fn damaged(&mut self) {
        let svids = self.random.below(6);
        let mut bytes = bytes_of(&self.drawn_sound(svids));
        for _ in 0..=self.random.below(MOST_DAMAGES) {
            let place = self.random.below(bytes.len());
            let value = self.drawn_value();
            match self.random.below(4) {
                0 => bytes.insert(place, value),
                1 => bytes[place..].rotate_left(1),
                _ => bytes[place] = value,
            }
        }
        self.read(bytes);
    }
}
