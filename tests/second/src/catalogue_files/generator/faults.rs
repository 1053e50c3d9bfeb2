//! The faults that 02 names, each at every place where it can stand.

use super::{bytes_of, Generator};
use crate::catalogue::{LEAST_OBJECTS, MOST_MODES};
use crate::catalogue_files::file::MOST_FILE_BYTES;
use crate::messages::MOST_AFTER_HEADER;
use crate::pages::MOST_SVIDS;
use crate::record::{Record, END_KIND, MODE_KIND, SVID_KIND};

const UNKNOWN_KIND: u8 = 0x21;

impl Generator {
    pub(super) fn faults(&mut self) {
        self.read(Vec::new());
        self.first_record();
        self.bare_svids();
        self.modes_past_last();
        self.svids_zero_and_again();
        self.identities_again();
        self.behind_the_longest();
        self.behind_the_longest_list();
    }

    /// Another record than an identity, whole and cut, with a sound file behind it or nothing.
    fn first_record(&mut self) {
        let sound = self.drawn_sound(1);
        for record in self.one_of_each() {
            self.read_cuts(&[], &record);
            self.read([record.bytes(), bytes_of(&sound)].concat());
        }
        self.read([vec![UNKNOWN_KIND], bytes_of(&sound)].concat());
    }

    /// An SVID without modes, alone or behind others, and what can follow it.
    fn bare_svids(&mut self) {
        for svids in [0, 1, 12, MOST_SVIDS - 1] {
            let mut records = self.drawn_sound(svids);
            records.pop();
            records.push(Record::Svid(self.random.svid_but_zero()));
            let bytes = bytes_of(&records);
            self.read(bytes.clone());
            for record in self.one_of_each() {
                self.read_cuts(&bytes, &record);
                self.read([&bytes[..], &record.bytes(), &[UNKNOWN_KIND]].concat());
                self.read([&bytes[..], &record.bytes(), &[END_KIND]].concat());
            }
            self.read([&bytes[..], &[UNKNOWN_KIND]].concat());
            self.read([&bytes[..], &[UNKNOWN_KIND, END_KIND]].concat());
        }
    }

    /// Of the first SVID, one in the middle, and the last.
    fn modes_past_last(&mut self) {
        for place in [0, 1, 2] {
            let mut mode_counts = [1; 3];
            mode_counts[place] = MOST_MODES;
            let mut records = self.sound(LEAST_OBJECTS, &mode_counts);
            let past_last = 1 + 2 * place + MOST_MODES;
            let mode = Record::Mode(self.random.object());
            self.read_cuts(&bytes_of(&records[..past_last]), &mode);
            records.insert(past_last, mode);
            self.read_records(&records);
        }
    }

    /// First, in the middle and last: 0, the SVID before, the first one, and the last one.
    fn svids_zero_and_again(&mut self) {
        for svids in [1, 2, 3, 13, MOST_SVIDS] {
            let records = self.sound(LEAST_OBJECTS, &vec![1; svids]);
            for (place, other) in [0, svids / 2, svids - 1]
                .into_iter()
                .flat_map(|place| [0, place.max(1) - 1, svids - 1].map(|other| (place, other)))
            {
                let (place, other) = (1 + 2 * place, 1 + 2 * other);
                let mut again = records.clone();
                again[place] = records[other].clone();
                self.read_records(&again);
                let mut zero = records.clone();
                zero[place] = Record::Svid(0);
                self.read_records(&zero);
            }
        }
    }

    /// Of every size, behind each record of a file.
    fn identities_again(&mut self) {
        let records = self.sound(LEAST_OBJECTS, &[1, 2]);
        for objects in LEAST_OBJECTS..=MOST_AFTER_HEADER {
            let identity = Record::Identity(self.random.objects(objects));
            for place in 1..records.len() {
                let mut again = records.clone();
                again.insert(place, identity.clone());
                self.read_records(&again);
                self.read_cuts(&bytes_of(&records[..place]), &identity);
            }
        }
    }

    /// All that can follow the longest beginning of a sound file.
    fn behind_the_longest(&mut self) {
        let mut records = self.longest();
        records.pop();
        let bytes = bytes_of(&records);
        self.read([&bytes[..], &[UNKNOWN_KIND]].concat());
        self.read([&bytes[..], &[SVID_KIND]].concat());
        self.read([&bytes[..], &[MODE_KIND, 0]].concat());
        for record in self.one_of_each() {
            self.read([bytes.clone(), record.bytes()].concat());
        }
        let identity = Record::Identity(self.random.objects(MOST_AFTER_HEADER)).bytes();
        let past_last = [bytes, identity].concat();
        self.read(past_last[..past_last.len() - 1].to_vec());
        self.read(past_last.clone());
        for filling in [END_KIND, UNKNOWN_KIND] {
            let mut filled = past_last.clone();
            filled.resize(usize::from(MOST_FILE_BYTES), filling);
            self.read(filled);
        }
    }

    /// A 73rd SVID: a new one, 0, the first again, the last again; cut or with a mode and an end.
    fn behind_the_longest_list(&mut self) {
        let mut records = self.longest_list();
        records.pop();
        let bytes = bytes_of(&records);
        let svids = [&records[1], &records[records.len() - 2], &Record::Svid(0)].map(Clone::clone);
        let drawn = (0..4).map(|_| Record::Svid(self.random.svid_but_zero()));
        let svids: Vec<Record> = svids.into_iter().chain(drawn).collect();
        for svid in svids {
            self.read_cuts(&bytes, &svid);
            let mode = Record::Mode(self.random.object());
            let tail = bytes_of(&[svid, mode, Record::End]);
            self.read([&bytes[..], &tail].concat());
        }
    }

    fn one_of_each(&mut self) -> Vec<Record> {
        let objects = LEAST_OBJECTS + self.random.below(MOST_AFTER_HEADER - LEAST_OBJECTS + 1);
        vec![
            Record::Identity(self.random.objects(objects)),
            Record::Svid(self.random.svid_but_zero()),
            Record::Mode(self.random.object()),
            Record::End,
        ]
    }

    /// The record behind the bytes, whole and cut at every place.
    fn read_cuts(&mut self, bytes: &[u8], record: &Record) {
        let record = record.bytes();
        for length in 1..=record.len() {
            self.read([bytes, &record[..length]].concat());
        }
    }
}
