//! Damaged messages in every standing: cut, too long, with faults in the header, and misshapen.

use super::situation::{Situation, STANDINGS};
use super::{Event, Generator};
use crate::header::{samples, Header};
use crate::messages::{
    ATTENTION, ENTER, IDENTITY, LAST_COMMAND, LAST_MINOR, LAST_POSITION, MOST_AFTER_HEADER,
    OBJECT_BYTES, REQ, SVIDS,
};
use crate::random::EDGE_SVIDS;
use crate::refusals::ACCEPTED;

/// Every length up to one object past the longest message, and these.
const LAST_LENGTH: usize = 32;
const LONG_LENGTHS: [usize; 4] = [33, 36, 64, 255];

impl Generator {
    pub(super) fn damage(&mut self) {
        for situation in STANDINGS {
            self.open_list();
            self.bring_to(situation);
            self.lengths(situation);
            self.faults(situation);
            self.flipped_bits(situation);
            self.shapes(situation);
            self.faults_without_room();
            self.close();
        }
    }

    fn lengths(&mut self, situation: Situation) {
        for length in (0..=LAST_LENGTH).chain(LONG_LENGTHS) {
            let bytes = self.cut_message(SVIDS, length);
            let outcome = self.push(Event::Bytes { bytes });
            self.restore(situation, outcome.refusal);
        }
    }

    /// A request and what comes after it, so many bytes in all.
    fn cut_message(&mut self, command: u8, length: usize) -> Vec<u8> {
        let header = Header::usual(command, REQ).word();
        let after_header = (OBJECT_BYTES..length).map(|_| self.random.byte());
        let mut bytes: Vec<u8> = header
            .to_le_bytes()
            .into_iter()
            .chain(after_header)
            .collect();
        bytes.truncate(length);
        bytes
    }

    /// Every mix of the faults behind 2, 3 and 5, so that their order shows, with bit 5 clear or set.
    fn faults(&mut self, situation: Situation) {
        for (sample, after_header) in samples() {
            let minor = self.random.byte() & LAST_MINOR;
            let headers = sample.with_faults().into_iter();
            for header in headers.filter(|header| header.minor == minor) {
                let outcome = self.message(header, after_header);
                self.restore(situation, outcome.refusal);
            }
        }
    }

    fn flipped_bits(&mut self, situation: Situation) {
        for command in [SVIDS, ENTER] {
            let word = Header::usual(command, REQ).word();
            for bit in 0..u32::BITS {
                let outcome = self.push(Event::Objects {
                    objects: vec![word ^ 1 << bit],
                });
                self.restore(situation, outcome.refusal);
            }
        }
    }

    /// Requests with each SVID, position and number of objects that a row takes or does not.
    fn shapes(&mut self, situation: Situation) {
        for command in IDENTITY..=ATTENTION {
            let usual = Header::usual(command, REQ);
            let svids = [0].into_iter().chain(EDGE_SVIDS);
            let svids = svids.map(|svid| (Header { svid, ..usual }, 0));
            let positions = (0..=LAST_POSITION).map(|position| (Header { position, ..usual }, 0));
            let counts = (1..=MOST_AFTER_HEADER).map(|count| (usual, count));
            for (header, after_header) in svids.chain(positions).chain(counts) {
                let outcome = self.message(header, after_header);
                self.restore(situation, outcome.refusal);
            }
        }
    }

    /// A request that would be answered at once, damaged: a short room is refused last.
    fn faults_without_room(&mut self) {
        self.room(0);
        for length in 0..=2 * OBJECT_BYTES {
            let bytes = self.cut_message(LAST_COMMAND, length);
            self.push(Event::Bytes { bytes });
        }
        for header in Header::usual(LAST_COMMAND, REQ).with_faults() {
            if header.minor == 0 {
                self.message(header, 0);
            }
        }
        self.whole_room();
    }

    /// Back to the situation if the message was taken.
    fn restore(&mut self, situation: Situation, refusal: u8) {
        if refusal == ACCEPTED {
            self.bring_to(situation);
        }
    }
}
