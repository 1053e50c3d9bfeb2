//! Whole records in another order than a sound file has them.

use super::{bytes_of, Generator};
use crate::catalogue::LEAST_OBJECTS;
use crate::record::Record;

const SHUFFLES: usize = 200;
const DRAWN_SEQUENCES: usize = 1500;
const MOST_DRAWN: usize = 16;
/// So few SVIDs are drawn that one often comes again, or is 0.
const FEW_SVIDS: usize = 8;

impl Generator {
    pub(super) fn order(&mut self) {
        let lists = [
            self.sound(LEAST_OBJECTS, &[2, 1, 3]),
            self.drawn_sound(5),
            self.drawn_sound(13),
        ];
        for records in &lists {
            for place in 0..records.len() {
                self.left_out(records, place);
                self.doubled(records, place);
                self.swapped(records, place);
                self.moved(records, place);
            }
        }
        for _ in 0..SHUFFLES {
            self.shuffled();
        }
        for _ in 0..DRAWN_SEQUENCES {
            self.drawn_sequence();
        }
    }

    fn left_out(&mut self, records: &[Record], place: usize) {
        let mut records = records.to_vec();
        records.remove(place);
        self.read_records(&records);
    }

    fn doubled(&mut self, records: &[Record], place: usize) {
        let mut records = records.to_vec();
        records.insert(place, records[place].clone());
        self.read_records(&records);
    }

    /// With the next, and with a drawn one.
    fn swapped(&mut self, records: &[Record], place: usize) {
        let next = (place + 1) % records.len();
        for other in [next, self.random.below(records.len())] {
            let mut records = records.to_vec();
            records.swap(place, other);
            self.read_records(&records);
        }
    }

    /// To the front, and behind the end.
    fn moved(&mut self, records: &[Record], place: usize) {
        let mut front = records.to_vec();
        front[..=place].rotate_right(1);
        self.read_records(&front);
        let mut last = records.to_vec();
        last[place..].rotate_left(1);
        self.read_records(&last);
    }

    /// All but the identity, or all.
    fn shuffled(&mut self) {
        let svids = 1 + self.random.below(3);
        let mut records = self.drawn_sound(svids);
        let fixed = usize::from(!self.random.is_rare());
        for place in fixed..records.len() {
            let other = place + self.random.below(records.len() - place);
            records.swap(place, other);
        }
        self.read_records(&records);
    }

    /// Records of any sort, mostly behind an identity, and SVIDs mostly with a mode; at times cut.
    fn drawn_sequence(&mut self) {
        let mut records = Vec::new();
        if !self.random.is_rare() {
            records.push(self.drawn_identity());
        }
        for _ in 0..self.random.below(MOST_DRAWN) {
            let next = match records.last() {
                Some(Record::Svid(_)) if !self.random.is_rare() => self.drawn_mode(),
                _ => self.drawn_record(),
            };
            records.push(next);
        }
        let mut bytes = bytes_of(&records);
        if self.random.is_rare() {
            bytes.truncate(self.random.below(bytes.len() + 1));
        } else if !self.random.is_rare() {
            bytes.extend(Record::End.bytes());
        }
        self.read(bytes);
    }

    fn drawn_identity(&mut self) -> Record {
        Record::Identity(self.random.objects(LEAST_OBJECTS))
    }

    fn drawn_mode(&mut self) -> Record {
        Record::Mode(self.random.object())
    }

    fn drawn_record(&mut self) -> Record {
        match self.random.below(16) {
            0 => self.drawn_identity(),
            1 => Record::End,
            2..=9 => Record::Svid(self.random.below(FEW_SVIDS) as u16),
            _ => self.drawn_mode(),
        }
    }
}
