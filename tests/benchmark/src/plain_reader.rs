//! Reading a catalogue's bytes as one would write it in Rust without a heap: judged first, with
//! the SVIDs in a plain array, and then stored.

use second::catalogue::{MOST_MODES, RUN_WORDS};
use second::messages::{MOST_AFTER_HEADER, OBJECT_BYTES};
use second::pages::MOST_SVIDS;
use second::record::{
    END_KIND, LEAST_IDENTITY_KIND, MODE_BYTES, MODE_KIND, MOST_IDENTITY_KIND, SVID_BYTES, SVID_KIND,
};
use second::refusals::{ACCEPTED, BYTES_AFTER_END, CUT_RECORD, OUT_OF_ORDER, UNKNOWN_KIND};

/// What the catalogue is read into. The run is long enough by its type.
#[derive(Clone, Debug, PartialEq, Eq)]
pub struct Lent {
    pub svids: [u16; MOST_SVIDS],
    pub modes: [u8; MOST_SVIDS],
    pub identity: [u32; MOST_AFTER_HEADER],
    pub run: [u32; RUN_WORDS],
    /// How many identity objects, SVIDs, and modes in all.
    pub sizes: [u16; 3],
}

/// The refusal number in the low eight bits and the offset above them, as the proved library has
/// them. A refusal leaves what is lent as it is.
#[inline(never)]
pub fn read(bytes: &[u8], lent: &mut Lent) -> u32 {
    let mut judged = Judged::default();
    let (refusal, offset) = match judged.walk(bytes) {
        Ok(()) => {
            judged.store(bytes, lent);
            (ACCEPTED, bytes.len())
        }
        Err(fault) => fault,
    };
    u32::from(refusal) | (offset as u32) << u8::BITS
}

struct Judged {
    /// 0 before the first record.
    objects: usize,
    count: usize,
    svids: [u16; MOST_SVIDS],
    modes: [u8; MOST_SVIDS],
}

impl Default for Judged {
    fn default() -> Self {
        Judged {
            objects: 0,
            count: 0,
            svids: [0; MOST_SVIDS],
            modes: [0; MOST_SVIDS],
        }
    }
}

impl Judged {
    /// Walks the records up to the end, or gives the number and offset of the first fault.
    fn walk(&mut self, bytes: &[u8]) -> Result<(), (u8, usize)> {
        let mut rest = bytes;
        loop {
            let offset = bytes.len() - rest.len();
            let Some((&kind, behind_kind)) = rest.split_first() else {
                return Err((CUT_RECORD, offset));
            };
            let Some(length) = body_length(kind) else {
                return Err((UNKNOWN_KIND, offset));
            };
            let Some((body, behind)) = behind_kind.split_at_checked(length) else {
                return Err((CUT_RECORD, offset));
            };
            if !self.add(kind, body) {
                return Err((OUT_OF_ORDER, offset));
            }
            if kind == END_KIND {
                return match behind {
                    [] => Ok(()),
                    _ => Err((BYTES_AFTER_END, offset + 1)),
                };
            }
            rest = behind;
        }
    }

    /// Whether the record may stand here.
    fn add(&mut self, kind: u8, body: &[u8]) -> bool {
        match kind {
            MODE_KIND => self.add_mode(),
            SVID_KIND => self.add_svid(u16::from_le_bytes([body[0], body[1]])),
            END_KIND => self.objects > 0 && !self.has_bare_svid(),
            _ => self.add_identity(kind),
        }
    }

    fn add_identity(&mut self, objects: u8) -> bool {
        let is_first = self.objects == 0;
        self.objects = usize::from(objects);
        is_first
    }

    fn add_svid(&mut self, svid: u16) -> bool {
        let fits = self.objects > 0 && self.count < MOST_SVIDS && !self.has_bare_svid();
        if !fits || svid == 0 || self.svids[..self.count].contains(&svid) {
            return false;
        }
        self.svids[self.count] = svid;
        self.count += 1;
        true
    }

    fn add_mode(&mut self) -> bool {
        let Some(modes) = self.modes[..self.count].last_mut() else {
            return false;
        };
        if usize::from(*modes) == MOST_MODES {
            return false;
        }
        *modes += 1;
        true
    }

    fn has_bare_svid(&self) -> bool {
        self.modes[..self.count].last() == Some(&0)
    }

    /// Stores the catalogue of the bytes, which are sound.
    fn store(&self, bytes: &[u8], lent: &mut Lent) {
        let (identity, mut rest) = bytes[1..].split_at(self.objects * OBJECT_BYTES);
        lent.identity = [0; MOST_AFTER_HEADER];
        for (word, bytes) in lent
            .identity
            .iter_mut()
            .zip(identity.chunks_exact(OBJECT_BYTES))
        {
            *word = object(bytes);
        }
        lent.svids = self.svids;
        lent.modes = self.modes;
        let places = lent.run.chunks_exact_mut(MOST_MODES);
        for (words, &modes) in places.zip(&self.modes[..self.count]) {
            let (records, behind) = rest[SVID_BYTES..].split_at(usize::from(modes) * MODE_BYTES);
            for (word, record) in words.iter_mut().zip(records.chunks_exact(MODE_BYTES)) {
                *word = object(&record[1..]);
            }
            rest = behind;
        }
        let total = self.modes.iter().map(|&modes| u16::from(modes)).sum();
        lent.sizes = [self.objects as u16, self.count as u16, total];
    }
}

fn body_length(kind: u8) -> Option<usize> {
    match kind {
        MODE_KIND => Some(MODE_BYTES - 1),
        SVID_KIND => Some(SVID_BYTES - 1),
        END_KIND => Some(0),
        LEAST_IDENTITY_KIND..=MOST_IDENTITY_KIND => Some(usize::from(kind) * OBJECT_BYTES),
        _ => None,
    }
}

fn object(bytes: &[u8]) -> u32 {
    u32::from_le_bytes([bytes[0], bytes[1], bytes[2], bytes[3]])
}
