//! Makes the files: sound ones of every sort, every fault of 02, and damage of every kind.

mod behind;
mod changes;
mod cuts;
mod drawn;
mod faults;
mod kinds;
mod lent;
mod order;
mod records;
mod rooms;
mod sound;
mod stretches;

use super::file::WHOLE_RUN;
use super::{Asked, File};
use crate::catalogue::RUN_WORDS;
use crate::catalogue_file::walk;
use crate::random::Random;
use crate::record::Record;

const ENOUGH_WORDS: u16 = RUN_WORDS as u16;
/// Case L's catalogue.
pub const CASE_L: [u8; 22] = [
    0x03, 0x22, 0x22, 0x11, 0x11, 0, 0, 0, 0, 0xFF, 0xFF, 0xFF, 0xFF, 0x10, 0x01, 0xFF, 0x20, 0x05,
    0x04, 0, 0, 0,
];

/// Where the record of its SVID begins, that of its mode, and its end.
const CASE_L_SVID: usize = 13;
const CASE_L_MODE: usize = 16;
const CASE_L_END: usize = 21;

struct Generator {
    random: Random,
    /// Draws the rooms alone, so that they change no other draw.
    room_random: Random,
    files: Vec<File>,
}

/// All files of a seed, in the order of the stream.
pub fn generate(seed: u64) -> Vec<File> {
    let mut generator = Generator {
        random: Random::from_seed(seed),
        room_random: Random::from_seed(!seed),
        files: Vec::new(),
    };
    generator.sound_files();
    generator.cuts();
    generator.changes();
    generator.behind();
    generator.order();
    generator.faults();
    generator.kinds();
    generator.lent();
    generator.stretches();
    generator.records();
    generator.drawn();
    generator.rooms();
    generator.files
}

fn bytes_of(records: &[Record]) -> Vec<u8> {
    records.iter().flat_map(Record::bytes).collect()
}

impl Generator {
    /// Asks for the catalogue with a run that is long enough.
    fn read(&mut self, bytes: Vec<u8>) {
        let words = self
            .random
            .one_of(&[ENOUGH_WORDS, ENOUGH_WORDS + 1, WHOLE_RUN]);
        let svid = self.svid_for(&bytes);
        self.read_with(words, svid, bytes);
    }

    fn read_records(&mut self, records: &[Record]) {
        self.read(bytes_of(records));
    }

    fn read_with(&mut self, words: u16, svid: u16, bytes: Vec<u8>) {
        let room = self.room_for(&bytes);
        let asked = Asked::Catalogue { words, svid, room };
        self.files.push(File::of(asked, bytes));
    }

    /// Mostly one that the file has.
    fn svid_for(&mut self, bytes: &[u8]) -> u16 {
        let (gathered, _) = walk(bytes);
        let svids = gathered.svids();
        if svids.is_empty() || self.random.is_rare() {
            self.random.svid()
        } else {
            self.random.one_of(&svids)
        }
    }
}
