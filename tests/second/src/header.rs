//! A header for the generators, with all its fields, so that each of them can be wrong.

use crate::edition::{Edition, OURS};
use crate::messages::{
    ACK, ATTENTION, BUSY, ENTER, EXIT, IDENTITY, LAST_COMMAND, LAST_MAJOR, LAST_MINOR, MODES, NAK,
    PD_SID, REQ, SVIDS,
};
use crate::random::Random;

const LAST_READ_MAJOR: u8 = 1;

#[derive(Clone, Copy)]
pub struct Header {
    pub svid: u16,
    pub structured: bool,
    pub major: u8,
    pub minor: u8,
    pub position: u8,
    pub kind: u8,
    pub reserved: bool,
    pub command: u8,
}

impl Header {
    /// A header as we send it at our edition.
    pub fn ours(svid: u16, command: u8, kind: u8, position: u8) -> Self {
        let (major, minor) = OURS.version();
        Header {
            svid,
            structured: true,
            major,
            minor,
            position,
            kind,
            reserved: false,
            command,
        }
    }

    /// The header with an SVID and a position that the command's row takes.
    pub fn usual(command: u8, kind: u8) -> Self {
        let svid = match command {
            IDENTITY | SVIDS => PD_SID,
            _ => 0xFF01,
        };
        let position = match command {
            ENTER | EXIT | ATTENTION => 1,
            _ => 0,
        };
        Header::ours(svid, command, kind, position)
    }

    /// The header as another maker may send it: its version, of those that are read, and bit 5 are
    /// drawn.
    pub fn of_another_maker(self, random: &mut Random) -> Self {
        Header {
            major: random.byte() & LAST_READ_MAJOR,
            minor: random.byte() & LAST_MINOR,
            reserved: random.below(2) == 1,
            ..self
        }
    }

    /// The same, but of all versions.
    pub fn of_any_version(self, random: &mut Random) -> Self {
        Header {
            major: random.byte() & LAST_MAJOR,
            ..self.of_another_maker(random)
        }
    }

    /// The header in one of the versions that are read as the edition.
    pub fn read_as(self, edition: Edition, random: &mut Random) -> Self {
        let (major, minor) = match edition {
            Edition::OneZero => (0, random.byte() & LAST_MINOR),
            Edition::TwoZero => (1, 0),
            Edition::TwoOne => (1, 1 + random.byte() % LAST_MINOR),
        };
        Header {
            major,
            minor,
            ..self
        }
    }

    /// The header with bit 5 set.
    pub fn with_reserved(self) -> Self {
        Header {
            reserved: true,
            ..self
        }
    }

    pub fn word(&self) -> u32 {
        u32::from(self.svid) << 16
            | u32::from(self.structured) << 15
            | u32::from(self.major) << 13
            | u32::from(self.minor) << 11
            | u32::from(self.position) << 8
            | u32::from(self.kind) << 6
            | u32::from(self.reserved) << 5
            | u32::from(self.command)
    }

    /// The header in every version, structured or not, with bit 5 clear or set.
    pub fn with_faults(self) -> Vec<Header> {
        let versions =
            (0..=LAST_MAJOR).flat_map(|major| (0..=LAST_MINOR).map(move |minor| (major, minor)));
        let flags = [(true, false), (true, true), (false, false), (false, true)];
        versions
            .flat_map(|version| flags.map(|flag| (version, flag)))
            .map(|((major, minor), (structured, reserved))| Header {
                major,
                minor,
                structured,
                reserved,
                ..self
            })
            .collect()
    }
}

/// Sound messages, at least one of every row, and last one of a wrong shape: each is a header and
/// the number of objects after it.
pub fn samples() -> [(Header, usize); 9] {
    [
        (Header::ours(PD_SID, IDENTITY, REQ, 0), 0),
        (Header::ours(PD_SID, SVIDS, ACK, 0), 1),
        (Header::ours(0xFF01, MODES, ACK, 0), 6),
        (Header::ours(0xFF01, ENTER, REQ, 1), 1),
        (Header::ours(0xFFFF, EXIT, BUSY, 7), 0),
        (Header::ours(0x0001, ATTENTION, REQ, 6), 1),
        (Header::ours(0x0000, 0, NAK, 5), 0),
        (Header::ours(0xA55A, LAST_COMMAND, REQ, 2), 3),
        (Header::ours(0x0000, MODES, REQ, 3), 2),
    ]
}
