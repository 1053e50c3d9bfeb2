//! Messages (01, "Message layout"; 02, R-2 and R-5): reading them from bytes and writing them to bytes.

use crate::edition::Edition;
use crate::refusals::{
    ACCEPTED, NOT_STRUCTURED, NOT_WHOLE_OBJECTS, SHORT_BUFFER, UNREAD_MAJOR, WRONG_SHAPE,
};

pub const IDENTITY: u8 = 1;
pub const SVIDS: u8 = 2;
pub const MODES: u8 = 3;
pub const ENTER: u8 = 4;
pub const EXIT: u8 = 5;
pub const ATTENTION: u8 = 6;
pub const LAST_COMMAND: u8 = 31;

pub const REQ: u8 = 0;
pub const ACK: u8 = 1;
pub const NAK: u8 = 2;
pub const BUSY: u8 = 3;
pub const LAST_KIND: u8 = BUSY;

pub const PD_SID: u16 = 0xFF00;
pub const LAST_MODE_POSITION: u8 = 6;
pub const LAST_POSITION: u8 = 7;

pub const OBJECT_BYTES: usize = 4;
pub const MOST_OBJECTS: usize = 7;
pub const MOST_AFTER_HEADER: usize = MOST_OBJECTS - 1;

/// Where the fields of the header begin.
const SVID_BIT: u32 = 16;
const MAJOR_BIT: u32 = 13;
const MINOR_BIT: u32 = 11;
const POSITION_BIT: u32 = 8;
pub const KIND_BIT: u32 = 6;
/// Bit 5 of the header, and so of its first byte: we send it as 0, and do not look at it.
pub const RESERVED: u8 = 1 << 5;

const STRUCTURED: u32 = 1 << 15;
pub const LAST_MAJOR: u8 = 3;
pub const LAST_MINOR: u8 = 3;

/// A well-shaped message; `kind` is the type of document 01, which is a word of Rust's own.
#[derive(Clone, Copy, Debug, PartialEq, Eq)]
pub struct Message {
    pub svid: u16,
    pub command: u8,
    pub kind: u8,
    pub position: u8,
    pub edition: Edition,
    pub objects: Objects,
}

/// What a request has in common with each answer to it; the edition is no part of it.
#[derive(Clone, Copy, Debug, PartialEq, Eq)]
pub struct Request {
    pub svid: u16,
    pub command: u8,
    pub position: u8,
}

impl Message {
    /// The request that this message is, or answers.
    pub fn request(&self) -> Request {
        Request {
            svid: self.svid,
            command: self.command,
            position: self.position,
        }
    }
}

/// The objects after the header; the words past the count are 0.
#[derive(Clone, Copy, Debug, PartialEq, Eq)]
pub struct Objects {
    words: [u32; MOST_AFTER_HEADER],
    count: usize,
}

impl Objects {
    fn from_bytes(objects: &[[u8; OBJECT_BYTES]]) -> Self {
        let mut words = [0; MOST_AFTER_HEADER];
        for (word, bytes) in words.iter_mut().zip(objects) {
            *word = u32::from_le_bytes(*bytes);
        }
        let count = objects.len();
        Objects { words, count }
    }

    pub fn as_slice(&self) -> &[u32] {
        &self.words[..self.count]
    }

    /// All six words, with zeros past the count.
    pub fn words(&self) -> &[u32; MOST_AFTER_HEADER] {
        &self.words
    }
}

/// The message that the bytes hold, or the first of the refusals 1, 2, 3 and 5 that applies.
pub fn read(bytes: &[u8]) -> Result<Message, u8> {
    let ([header, after @ ..], []) = bytes.as_chunks::<OBJECT_BYTES>() else {
        return Err(NOT_WHOLE_OBJECTS);
    };
    if after.len() > MOST_AFTER_HEADER {
        return Err(NOT_WHOLE_OBJECTS);
    }
    let header = u32::from_le_bytes(*header);
    if header & STRUCTURED == 0 {
        return Err(NOT_STRUCTURED);
    }
    let (major, minor) = version(header);
    let edition = Edition::of_version(major, minor).ok_or(UNREAD_MAJOR)?;
    let svid = (header >> SVID_BIT) as u16;
    let command = header as u8 & LAST_COMMAND;
    let kind = (header >> KIND_BIT) as u8 & LAST_KIND;
    let position = (header >> POSITION_BIT) as u8 & LAST_POSITION;
    if !is_well_shaped(svid, command, kind, position, 1 + after.len()) {
        return Err(WRONG_SHAPE);
    }
    Ok(Message {
        svid,
        command,
        kind,
        position,
        edition,
        objects: Objects::from_bytes(after),
    })
}

/// The major and the minor of the header with which the bytes begin.
pub fn version_of(bytes: &[u8]) -> Option<(u8, u8)> {
    let header = bytes.first_chunk()?;
    Some(version(u32::from_le_bytes(*header)))
}

/// The major and the minor of a header.
fn version(header: u32) -> (u8, u8) {
    let major = (header >> MAJOR_BIT) as u8 & LAST_MAJOR;
    let minor = (header >> MINOR_BIT) as u8 & LAST_MINOR;
    (major, minor)
}

/// The objects one after another, least significant byte first.
pub fn bytes_of(objects: &[u32]) -> Vec<u8> {
    objects.iter().flat_map(|word| word.to_le_bytes()).collect()
}

/// Whether bit 5 of the header is set.
pub fn has_reserved(bytes: &[u8]) -> bool {
    bytes.first().is_some_and(|byte| byte & RESERVED != 0)
}

/// Sets bit 5 of the header where it is clear, and clears it where it is set.
pub fn flip_reserved(bytes: &mut [u8]) {
    if let Some(byte) = bytes.first_mut() {
        *byte ^= RESERVED;
    }
}

/// The same of a header among objects.
pub fn flip_reserved_of(objects: &mut [u32]) {
    if let Some(header) = objects.first_mut() {
        *header ^= u32::from(RESERVED);
    }
}

/// Writes the message at the start of `out` and gives 0. It gives 5 for a wrong shape or a number
/// that is no edition, else 11 for a short buffer, and then writes nothing.
pub fn write(
    svid: u16,
    command: u8,
    kind: u8,
    position: u8,
    edition: u8,
    objects: &[u32],
    out: &mut [u8],
) -> u8 {
    let Some(edition) = Edition::of_number(edition) else {
        return WRONG_SHAPE;
    };
    if !is_well_shaped(svid, command, kind, position, 1 + objects.len()) {
        return WRONG_SHAPE;
    }
    let [first, after @ ..] = out.as_chunks_mut::<OBJECT_BYTES>().0 else {
        return SHORT_BUFFER;
    };
    if after.len() < objects.len() {
        return SHORT_BUFFER;
    }
    let (major, minor) = edition.version();
    let header = u32::from(svid) << SVID_BIT
        | STRUCTURED
        | u32::from(major) << MAJOR_BIT
        | u32::from(minor) << MINOR_BIT
        | u32::from(position) << POSITION_BIT
        | u32::from(kind) << KIND_BIT
        | u32::from(command);
    *first = header.to_le_bytes();
    for (bytes, object) in after.iter_mut().zip(objects) {
        *bytes = object.to_le_bytes();
    }
    ACCEPTED
}

/// Whether the table of 01 has such a message; a field too large for the header fits no row.
fn is_well_shaped(svid: u16, command: u8, kind: u8, position: u8, objects: usize) -> bool {
    let Some(&Row(limits, svid_rule, (first, last))) = row(command) else {
        return false;
    };
    let Some(&(least, most)) = limits.get(usize::from(kind)) else {
        return false;
    };
    (least..=most).contains(&objects)
        && svid_rule.allows(svid)
        && (first..=last).contains(&position)
}

/// A row of 01's table: the least and the most objects, the header included, of REQ, ACK, NAK and
/// BUSY; the SVID; the first and the last position.
struct Row([(usize, usize); 4], SvidRule, (u8, u8));

const LONE: (usize, usize) = (1, 1);
/// No message has 0 objects.
const NONE: (usize, usize) = (0, 0);

fn row(command: u8) -> Option<&'static Row> {
    Some(match command {
        IDENTITY => &Row([LONE, (4, 7), LONE, LONE], SvidRule::PdSid, (0, 0)),
        SVIDS => &Row([LONE, (2, 7), LONE, LONE], SvidRule::PdSid, (0, 0)),
        MODES => &Row([LONE, (2, 7), LONE, LONE], SvidRule::NotZero, (0, 0)),
        ENTER => &Row([(1, 2), LONE, LONE, LONE], SvidRule::NotZero, (1, 6)),
        EXIT => &Row([LONE, LONE, LONE, LONE], SvidRule::NotZero, (1, 7)),
        ATTENTION => &Row([(1, 2), NONE, NONE, NONE], SvidRule::NotZero, (1, 6)),
        0 | 7..=LAST_COMMAND => &Row([(1, 7), NONE, LONE, NONE], SvidRule::Any, (0, 7)),
        _ => return None,
    })
}

#[derive(Clone, Copy)]
enum SvidRule {
    PdSid,
    NotZero,
    Any,
}

impl SvidRule {
    fn allows(self, svid: u16) -> bool {
        match self {
            SvidRule::PdSid => svid == PD_SID,
            SvidRule::NotZero => svid != 0,
            SvidRule::Any => true,
        }
    }
}
