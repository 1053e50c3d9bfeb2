//! The stretch of each SVID of a file, and of SVIDs that the file lacks.

use super::{bytes_of, Generator, ENOUGH_WORDS};
use crate::catalogue::{LEAST_OBJECTS, MOST_MODES};
use crate::catalogue_file::walk;
use crate::pages::MOST_SVIDS;
use crate::random::EDGE_SVIDS;
use crate::record::{Record, SVID_KIND};

const UNSOUND: usize = 40;

impl Generator {
    pub(super) fn stretches(&mut self) {
        let each_count: Vec<usize> = (1..=MOST_MODES).collect();
        let files = [
            self.sound(LEAST_OBJECTS, &each_count),
            self.drawn_sound(0),
            self.drawn_sound(1),
            self.drawn_sound(2),
            self.drawn_sound(13),
            self.drawn_sound(MOST_SVIDS),
        ];
        for records in &files {
            let bytes = bytes_of(records);
            self.each_stretch(&bytes);
            self.stretches_not_there(&bytes);
        }
        self.hidden_svids();
        self.unsound_stretches();
        let longest = self.longest();
        let bytes = bytes_of(&longest);
        let (gathered, _) = walk(&bytes);
        let svids = gathered.svids();
        for svid in [svids[0], svids[MOST_SVIDS / 2], svids[MOST_SVIDS - 1], 0] {
            self.stretch(svid, &bytes);
        }
    }

    fn stretch(&mut self, svid: u16, bytes: &[u8]) {
        self.read_with(ENOUGH_WORDS, svid, bytes.to_vec());
    }

    fn each_stretch(&mut self, bytes: &[u8]) {
        let (gathered, _) = walk(bytes);
        for svid in gathered.svids() {
            self.stretch(svid, bytes);
        }
    }

    /// 0, the edges, and neighbours of those that are there: one more, and the bytes exchanged.
    fn stretches_not_there(&mut self, bytes: &[u8]) {
        let (gathered, _) = walk(bytes);
        let near = gathered.svids().into_iter().take(MOST_MODES);
        let near: Vec<u16> = near
            .flat_map(|svid| [svid.wrapping_add(1), svid.swap_bytes()])
            .collect();
        for svid in [0].into_iter().chain(EDGE_SVIDS).chain(near) {
            self.stretch(svid, bytes);
        }
    }

    /// Modes and objects in which the bytes of another SVID's record stand.
    fn hidden_svids(&mut self) {
        for _ in 0..MOST_MODES {
            let svid = self.random.svid_but_zero();
            let [low, high] = svid.to_le_bytes();
            let hidden = u32::from_le_bytes([SVID_KIND, low, high, self.random.byte()]);
            let mut records = self.drawn_sound(3);
            for record in &mut records {
                match record {
                    Record::Identity(objects) => objects.fill(hidden),
                    Record::Mode(mode) => *mode = hidden,
                    Record::Svid(_) | Record::End => {}
                }
            }
            self.stretch(svid, &bytes_of(&records));
        }
    }

    /// Of an SVID whose modes are whole, in a file that is not, and of 0.
    fn unsound_stretches(&mut self) {
        for _ in 0..UNSOUND {
            let sound = bytes_of(&self.drawn_sound(3));
            let place = self.random.below(sound.len());
            let mut changed = sound.clone();
            changed[place] = self.random.byte();
            let twice = [&sound[..], &sound].concat();
            for bytes in [&sound[..place], &changed, &twice] {
                self.each_stretch(bytes);
                self.stretch(0, bytes);
            }
        }
    }
}
