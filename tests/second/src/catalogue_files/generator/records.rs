//! The record at an offset: at, within and behind records, and past the bytes.

use super::{bytes_of, Generator, CASE_L};
use crate::catalogue_files::file::MOST_FILE_BYTES;
use crate::catalogue_files::{Asked, File};
use crate::messages::MOST_AFTER_HEADER;
use crate::record::{body_length, END_KIND, MODE_BYTES, MOST_IDENTITY_BYTES, SVID_BYTES};

const DAMAGED: usize = 200;
const MOST_FRONT: usize = 4;
/// So many offsets past the bytes.
const PAST_LAST: u16 = 3;

impl Generator {
    pub(super) fn records(&mut self) {
        self.every_offset(&CASE_L);
        self.every_offset(&[]);
        let short = self.sound(MOST_AFTER_HEADER, &[2, 1]);
        self.every_offset(&bytes_of(&short));
        for kind in 0..=u8::MAX {
            self.kind_with_body(kind);
        }
        self.damaged_records();
        self.records_of_the_longest();
    }

    fn record(&mut self, offset: u16, bytes: Vec<u8>) {
        self.files.push(File::of(Asked::Record { offset }, bytes));
    }

    fn every_offset(&mut self, bytes: &[u8]) {
        let last = bytes.len() as u16 + PAST_LAST;
        for offset in (0..=last).chain([u16::MAX]) {
            self.record(offset, bytes.to_vec());
        }
    }

    /// With as many bytes behind it as its body has, one fewer and one more.
    fn kind_with_body(&mut self, kind: u8) {
        let length = body_length(kind).unwrap_or_default();
        for length in length.max(1) - 1..=length + 1 {
            let front = self.random.below(MOST_FRONT);
            let front = self.drawn_bytes(front);
            let body = self.drawn_bytes(length);
            let offset = front.len() as u16;
            self.record(offset, [&front[..], &[kind], &body].concat());
        }
    }

    /// A byte is changed and the rest is cut: the record there and before it, and at drawn places.
    fn damaged_records(&mut self) {
        for _ in 0..DAMAGED {
            let svids = self.random.below(4);
            let records = self.drawn_sound(svids);
            let whole = self.random.below(records.len());
            let border = bytes_of(&records[..whole]).len();
            let before = bytes_of(&records[..whole.max(1) - 1]).len();
            let mut bytes = bytes_of(&records);
            let place = self.random.below(bytes.len());
            bytes[place] = self.random.byte();
            bytes.truncate(border + self.random.below(bytes.len() - border + 1));
            let drawn = self.random.below(bytes.len() + 1 + usize::from(PAST_LAST));
            for offset in [border, before, drawn] {
                self.record(offset as u16, bytes.clone());
            }
        }
    }

    /// The longest file around its end, and the most bytes that are read.
    fn records_of_the_longest(&mut self) {
        let mut bytes = bytes_of(&self.longest());
        let last = bytes.len() as u16 - 1;
        let first_svid = MOST_IDENTITY_BYTES as u16;
        let first_mode = first_svid + SVID_BYTES as u16;
        let last_mode = last - MODE_BYTES as u16;
        let past = last + 1..=last + 2;
        let offsets = [0, 1, first_svid, first_mode, last_mode, last];
        for offset in offsets.into_iter().chain(past) {
            self.record(offset, bytes.clone());
        }
        bytes.resize(usize::from(MOST_FILE_BYTES), END_KIND);
        for offset in [MOST_FILE_BYTES - 1, MOST_FILE_BYTES, MOST_FILE_BYTES + 1] {
            let asked = Asked::Record { offset };
            let length = MOST_FILE_BYTES + 1;
            let bytes = bytes.clone();
            self.files.push(File {
                asked,
                length,
                bytes,
            });
        }
    }
}
