//! Mending a damaged catalogue file (02, R-6): what its whole records before the first fault have
//! is written anew to a second buffer, with an end behind it.

use super::{walk, Refused};
use crate::record::Record;
use crate::refusals::{NO_IDENTITY, SHORT_BUFFER};

/// What came out, which is a sound file in any case.
#[derive(Clone, Copy, Debug, PartialEq, Eq)]
pub enum Mended {
    /// The file was sound and came out the same.
    Sound(Kept),
    /// The file has this fault, and what stands behind it is lost.
    Partial { fault: Refused, kept: Kept },
}

/// How many SVIDs and modes came out, and in how many bytes.
#[derive(Clone, Copy, Debug, Default, PartialEq, Eq)]
pub struct Kept {
    pub svids: usize,
    pub modes: usize,
    pub length: usize,
}

/// Writes a sound file at the start of `out`, or writes nothing and refuses: with 19 if no whole
/// identity is at the front, then with 11 if `out` is too short.
pub fn mend(bytes: &[u8], out: &mut [u8]) -> Result<Mended, u8> {
    let (gathered, fault) = walk(bytes);
    let records = gathered.into_sound().ok_or(NO_IDENTITY)?;
    let written: Vec<u8> = records.iter().flat_map(Record::bytes).collect();
    let start = out.get_mut(..written.len()).ok_or(SHORT_BUFFER)?;
    start.copy_from_slice(&written);
    let kept = Kept::of(&records, written.len());
    Ok(match fault {
        None => Mended::Sound(kept),
        Some(fault) => Mended::Partial { fault, kept },
    })
}

impl Mended {
    pub fn kept(&self) -> Kept {
        match *self {
            Mended::Sound(kept) | Mended::Partial { kept, .. } => kept,
        }
    }
}

impl Kept {
    fn of(records: &[Record], length: usize) -> Self {
        let count = |is_counted: fn(&&Record) -> bool| records.iter().filter(is_counted).count();
        Kept {
            svids: count(|record| matches!(record, Record::Svid(_))),
            modes: count(|record| matches!(record, Record::Mode(_))),
            length,
        }
    }
}
