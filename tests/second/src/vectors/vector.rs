//! One vector of the stream that both implementations answer, and its form as bytes.

use crate::messages::flip_reserved;
use crate::stream::{count_byte, put_objects, take_bytes, take_kind, take_objects, take_run, Stop};
use std::io::{self, BufRead, Read, Write};

const READ: u8 = 0x01;
const WRITE: u8 = 0x02;

pub enum Vector {
    /// A message to read.
    Read { bytes: Vec<u8> },
    /// A message to write to a buffer of `room` bytes.
    Write {
        svid: u16,
        command: u8,
        kind: u8,
        position: u8,
        /// The number of the edition.
        edition: u8,
        room: u8,
        objects: Vec<u32>,
    },
}

impl Vector {
    /// The same vector, a message to read with bit 5 of its header the other way round.
    pub fn with_reserved_flipped(mut self) -> Self {
        if let Vector::Read { bytes } = &mut self {
            flip_reserved(bytes);
        }
        self
    }

    pub fn take(input: &mut impl BufRead) -> Result<Self, Stop> {
        match take_kind(input)? {
            READ => Self::take_read(input),
            WRITE => Self::take_write(input),
            _ => Err(Stop::UnknownKind),
        }
    }

    fn take_read(input: &mut impl Read) -> Result<Self, Stop> {
        let [length] = take_bytes(input)?;
        let bytes = take_run(input, length)?;
        Ok(Vector::Read { bytes })
    }

    fn take_write(input: &mut impl Read) -> Result<Self, Stop> {
        let [svid_low, svid_high, command, kind, position, edition, room, count] =
            take_bytes(input)?;
        let objects = take_objects(input, count)?;
        Ok(Vector::Write {
            svid: u16::from_le_bytes([svid_low, svid_high]),
            command,
            kind,
            position,
            edition,
            room,
            objects,
        })
    }

    pub fn put(&self, output: &mut impl Write) -> io::Result<()> {
        match self {
            Vector::Read { bytes } => {
                output.write_all(&[READ, count_byte(bytes)])?;
                output.write_all(bytes)
            }
            Vector::Write {
                svid,
                command,
                kind,
                position,
                edition,
                room,
                objects,
            } => {
                let [svid_low, svid_high] = svid.to_le_bytes();
                let count = count_byte(objects);
                output.write_all(&[
                    WRITE, svid_low, svid_high, *command, *kind, *position, *edition, *room, count,
                ])?;
                put_objects(objects, output)
            }
        }
    }
}
