//! What a caller without lists of its own lends for the catalogue: arrays, and the run.

use super::{read, Refused};
use crate::messages::MOST_AFTER_HEADER;
use crate::pages::MOST_SVIDS;

#[derive(Clone, Debug, PartialEq, Eq)]
pub struct Lent {
    pub identity: [u32; MOST_AFTER_HEADER],
    pub svids: [u16; MOST_SVIDS],
    /// How many modes each SVID has.
    pub mode_counts: [u8; MOST_SVIDS],
    pub run: Vec<u32>,
}

/// How many identity objects, SVIDs, and modes in all.
#[derive(Clone, Copy, Debug, Default, PartialEq, Eq)]
pub struct Sizes {
    pub objects: usize,
    pub svids: usize,
    pub modes: usize,
}

impl Lent {
    /// Each byte is this one.
    pub fn filled_with(byte: u8, run_words: usize) -> Self {
        let word = u32::from_ne_bytes([byte; 4]);
        Lent {
            identity: [word; MOST_AFTER_HEADER],
            svids: [u16::from_ne_bytes([byte; 2]); MOST_SVIDS],
            mode_counts: [byte; MOST_SVIDS],
            run: vec![word; run_words],
        }
    }

    /// Reads the file with so many words of the run. Behind what the catalogue has, its arrays
    /// have zeros; of the run the modes alone are written.
    pub fn read(&mut self, bytes: &[u8], words: usize) -> Result<Sizes, Refused> {
        let catalogue = read(bytes, &mut self.run[..words])?;
        let counts = catalogue.mode_counts.iter().map(|&count| count as u8);
        self.identity = whole(catalogue.identity.iter().copied());
        self.svids = whole(catalogue.svids.iter().copied());
        self.mode_counts = whole(counts);
        Ok(Sizes {
            objects: catalogue.identity.len(),
            svids: catalogue.svids.len(),
            modes: catalogue.mode_counts.iter().sum(),
        })
    }
}

/// An array with these first, and zeros behind them.
fn whole<Number: Default + Copy, const LENGTH: usize>(
    numbers: impl Iterator<Item = Number>,
) -> [Number; LENGTH] {
    let mut array = [Number::default(); LENGTH];
    for (place, number) in array.iter_mut().zip(numbers) {
        *place = number;
    }
    array
}
