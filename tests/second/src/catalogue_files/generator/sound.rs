//! Sound files: lists of every length, every number of modes and of identity objects, and numbers
//! whose bytes could be taken for kinds.

use super::{Generator, CASE_L};
use crate::catalogue::{LEAST_OBJECTS, MOST_MODES};
use crate::messages::MOST_AFTER_HEADER;
use crate::pages::MOST_SVIDS;
use crate::random::EDGE_SVIDS;
use crate::record::Record;

/// Lists at the edges of pages, and the longest.
const LISTS: [usize; 9] = [0, 1, 2, 3, 11, 12, 13, MOST_SVIDS - 1, MOST_SVIDS];
/// Each is every object and mode of a file once.
const WORDS: [u32; 5] = [0, u32::MAX, 0x2020_2020, 0x1010_1010, 0x0303_0303];
/// SVIDs whose bytes are kinds.
const KIND_SVIDS: [u16; 5] = [0x1010, 0x2010, 0x0003, 0x0300, 0x2000];

impl Generator {
    pub(super) fn sound_files(&mut self) {
        self.read(CASE_L.to_vec());
        for svids in LISTS {
            for objects in LEAST_OBJECTS..=MOST_AFTER_HEADER {
                for modes in 1..=MOST_MODES {
                    let records = self.sound(objects, &vec![modes; svids]);
                    self.read_records(&records);
                }
            }
        }
        for svids in 0..=MOST_SVIDS {
            let records = self.drawn_sound(svids);
            self.read_records(&records);
        }
        self.words();
        self.edge_svids();
    }

    /// A file of drawn numbers: so many identity objects, and so many modes of each SVID.
    pub(super) fn sound(&mut self, objects: usize, mode_counts: &[usize]) -> Vec<Record> {
        let svids = self.random.different_svids(mode_counts.len());
        let mut records = vec![Record::Identity(self.random.objects(objects))];
        for (&svid, &count) in svids.iter().zip(mode_counts) {
            records.push(Record::Svid(svid));
            let modes = self.random.objects(count).into_iter();
            records.extend(modes.map(Record::Mode));
        }
        records.push(Record::End);
        records
    }

    /// So many SVIDs; the rest is drawn.
    pub(super) fn drawn_sound(&mut self, svids: usize) -> Vec<Record> {
        let objects = LEAST_OBJECTS + self.random.below(MOST_AFTER_HEADER - LEAST_OBJECTS + 1);
        let mode_counts: Vec<usize> = (0..svids)
            .map(|_| 1 + self.random.below(MOST_MODES))
            .collect();
        self.sound(objects, &mode_counts)
    }

    pub(super) fn longest(&mut self) -> Vec<Record> {
        self.sound(MOST_AFTER_HEADER, &[MOST_MODES; MOST_SVIDS])
    }

    /// The longest list with the fewest modes.
    pub(super) fn longest_list(&mut self) -> Vec<Record> {
        self.sound(LEAST_OBJECTS, &[1; MOST_SVIDS])
    }

    fn words(&mut self) {
        for word in WORDS {
            for svids in [1, 12, MOST_SVIDS] {
                let mut records = self.drawn_sound(svids);
                for record in &mut records {
                    match record {
                        Record::Identity(objects) => objects.fill(word),
                        Record::Mode(mode) => *mode = word,
                        Record::Svid(_) | Record::End => {}
                    }
                }
                self.read_records(&records);
            }
        }
    }

    /// Each of them first, and all in one file.
    fn edge_svids(&mut self) {
        let mut edges = [&EDGE_SVIDS[..], &KIND_SVIDS].concat();
        for _ in 0..edges.len() {
            edges.rotate_left(1);
            for count in [1, edges.len()] {
                let mut records = self.drawn_sound(count);
                let mut svids = edges.iter();
                for record in &mut records {
                    if let Record::Svid(svid) = record {
                        *svid = *svids.next().expect("there are as many edges as SVIDs");
                    }
                }
                self.read_records(&records);
            }
        }
    }
}
