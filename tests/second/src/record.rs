//! One record of a catalogue's bytes (01, "Catalogue bytes and the watcher program"): a byte of
//! kind, then a body whose length the kind fixes.

use crate::catalogue::LEAST_OBJECTS;
use crate::messages::{MOST_AFTER_HEADER, OBJECT_BYTES};
use crate::refusals::{CUT_RECORD, UNKNOWN_KIND};

/// An identity's kind is the number of its objects.
pub const LEAST_IDENTITY_KIND: u8 = LEAST_OBJECTS as u8;
pub const MOST_IDENTITY_KIND: u8 = MOST_AFTER_HEADER as u8;
pub const SVID_KIND: u8 = 0x10;
pub const MODE_KIND: u8 = 0x20;
pub const END_KIND: u8 = 0x00;

pub const SVID_BYTES: usize = 1 + size_of::<u16>();
pub const MODE_BYTES: usize = 1 + OBJECT_BYTES;
pub const MOST_IDENTITY_BYTES: usize = 1 + MOST_AFTER_HEADER * OBJECT_BYTES;

#[derive(Clone, Debug, PartialEq, Eq)]
pub enum Record {
    Identity(Vec<u32>),
    Svid(u16),
    Mode(u32),
    End,
}

impl Record {
    /// The record that starts at the offset, with the offset behind it; nothing where the bytes
    /// stop there. It is refused with 15 for its kind, then 16 if the bytes stop within it; 16 also
    /// where they stop before it.
    pub fn at(bytes: &[u8], offset: usize) -> Result<Option<(Self, usize)>, u8> {
        let rest = bytes.get(offset..).ok_or(CUT_RECORD)?;
        let Some((&kind, behind_kind)) = rest.split_first() else {
            return Ok(None);
        };
        let length = body_length(kind).ok_or(UNKNOWN_KIND)?;
        let body = behind_kind.get(..length).ok_or(CUT_RECORD)?;
        Ok(Some((Self::of(kind, body), offset + 1 + length)))
    }

    /// The body has the length that the kind fixes.
    fn of(kind: u8, body: &[u8]) -> Self {
        match kind {
            SVID_KIND => Record::Svid(number(body) as u16),
            MODE_KIND => Record::Mode(number(body)),
            END_KIND => Record::End,
            _ => Record::Identity(body.chunks(OBJECT_BYTES).map(number).collect()),
        }
    }

    pub fn bytes(&self) -> Vec<u8> {
        match self {
            Record::Identity(objects) => {
                let body = objects.iter().flat_map(|object| object.to_le_bytes());
                [objects.len() as u8].into_iter().chain(body).collect()
            }
            Record::Svid(svid) => [&[SVID_KIND][..], &svid.to_le_bytes()].concat(),
            Record::Mode(mode) => [&[MODE_KIND][..], &mode.to_le_bytes()].concat(),
            Record::End => vec![END_KIND],
        }
    }
}

/// How many bytes follow the kind, if it is known.
pub fn body_length(kind: u8) -> Option<usize> {
    match kind {
        LEAST_IDENTITY_KIND..=MOST_IDENTITY_KIND => Some(usize::from(kind) * OBJECT_BYTES),
        SVID_KIND => Some(SVID_BYTES - 1),
        MODE_KIND => Some(MODE_BYTES - 1),
        END_KIND => Some(0),
        _ => None,
    }
}

/// Of at most four bytes, the low one first.
fn number(bytes: &[u8]) -> u32 {
    let highest_first = bytes.iter().rev();
    highest_first.fold(0, |number, &byte| number << u8::BITS | u32::from(byte))
}
