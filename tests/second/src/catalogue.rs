//! A catalogue (01, "The laptop end"): what is known of it beside its run of mode words, and its
//! bytes (01, "Catalogue bytes and the watcher program").

use crate::messages::MOST_AFTER_HEADER;
use crate::pages::MOST_SVIDS;
use crate::record::{Record, MODE_BYTES, MOST_IDENTITY_BYTES, SVID_BYTES};
use crate::refusals::{NOT_HELD, SHORT_BUFFER};

/// The words of a run that one SVID has.
pub const MOST_MODES: usize = MOST_AFTER_HEADER;
pub const RUN_WORDS: usize = MOST_SVIDS * MOST_MODES;
pub const MOST_CATALOGUE_BYTES: usize =
    MOST_IDENTITY_BYTES + MOST_SVIDS * (SVID_BYTES + MOST_MODES * MODE_BYTES) + 1;
/// The least identity objects of a catalogue.
pub const LEAST_OBJECTS: usize = 3;

#[derive(Clone, Debug, PartialEq, Eq)]
pub struct Catalogue {
    pub identity: Vec<u32>,
    pub svids: Vec<u16>,
    /// How many modes each SVID has; shorter than the SVIDs as long as modes are missing.
    pub mode_counts: Vec<usize>,
}

impl Catalogue {
    /// A catalogue with an empty list.
    pub fn of_identity(identity: &[u32]) -> Self {
        Catalogue {
            identity: identity.to_vec(),
            svids: Vec::new(),
            mode_counts: Vec::new(),
        }
    }

    pub fn first_without_modes(&self) -> Option<u16> {
        self.svids.get(self.mode_counts.len()).copied()
    }

    pub fn has_svid(&self, svid: u16) -> bool {
        self.svids.contains(&svid)
    }

    /// Positions count from 1.
    pub fn has_mode(&self, svid: u16, position: u8) -> bool {
        self.svids
            .iter()
            .zip(&self.mode_counts)
            .any(|(&held, &count)| held == svid && (1..=count).contains(&usize::from(position)))
    }

    /// Stores the modes of the first SVID without them in the run.
    pub fn store_modes(&mut self, modes: &[u32], run: &mut [u32]) {
        let first = self.mode_counts.len() * MOST_MODES;
        run[first..][..modes.len()].copy_from_slice(modes);
        self.mode_counts.push(modes.len());
    }

    /// Copies the modes, and no other word, from one run to another.
    pub fn copy_modes(&self, from: &[u32], to: &mut [u32]) {
        let places = from.chunks(MOST_MODES).zip(to.chunks_mut(MOST_MODES));
        for (&count, (from, to)) in self.mode_counts.iter().zip(places) {
            to[..count].copy_from_slice(&from[..count]);
        }
    }

    /// Writes the catalogue's bytes at the start of `out` and gives their number, or writes nothing
    /// and refuses with 12 for too few identity objects, then 11 for a short buffer.
    pub fn write(&self, run: &[u32], out: &mut [u8]) -> Result<usize, u8> {
        if self.identity.len() < LEAST_OBJECTS {
            return Err(NOT_HELD);
        }
        let bytes = self.bytes(run);
        let Some(start) = out.get_mut(..bytes.len()) else {
            return Err(SHORT_BUFFER);
        };
        start.copy_from_slice(&bytes);
        Ok(bytes.len())
    }

    fn bytes(&self, run: &[u32]) -> Vec<u8> {
        let mut records = vec![Record::Identity(self.identity.clone())];
        let modes = run.chunks(MOST_MODES).zip(&self.mode_counts);
        for (&svid, (words, &count)) in self.svids.iter().zip(modes) {
            records.push(Record::Svid(svid));
            records.extend(words[..count].iter().map(|&mode| Record::Mode(mode)));
        }
        records.push(Record::End);
        records.iter().flat_map(Record::bytes).collect()
    }
}
