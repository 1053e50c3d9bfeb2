//! Every byte as a kind, at every sort of place.

use super::{bytes_of, Generator};
use crate::catalogue::LEAST_OBJECTS;
use crate::record::MOST_IDENTITY_BYTES;

impl Generator {
    /// At the front, and behind the identity, an SVID, a mode and the end: as the last byte, and
    /// with bytes behind it that are enough for any body.
    pub(super) fn kinds(&mut self) {
        let records = self.sound(LEAST_OBJECTS, &[1]);
        for count in 0..=records.len() {
            let bytes = bytes_of(&records[..count]);
            for kind in 0..=u8::MAX {
                self.read([&bytes[..], &[kind]].concat());
                let body = self.drawn_bytes(MOST_IDENTITY_BYTES - 1);
                self.read([&bytes[..], &[kind], &body].concat());
            }
        }
    }
}
