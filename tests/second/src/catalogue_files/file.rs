//! One file of the stream, with what is asked about it, and its form as bytes.

use crate::stream::{take_bytes, take_kind, take_run, Stop};
use std::io::{self, BufRead, Read, Write};

const CATALOGUE: u8 = 0x01;
const RECORD: u8 = 0x02;

/// A greater number in the stream counts as this one.
pub const MOST_FILE_BYTES: u16 = 4096;
pub const WHOLE_RUN: u16 = 440;
pub const WHOLE_ROOM: u16 = 2410;

#[derive(Clone, Debug, PartialEq, Eq)]
pub struct File {
    pub asked: Asked,
    /// The number of bytes as the stream has it.
    pub length: u16,
    pub bytes: Vec<u8>,
}

#[derive(Clone, Copy, Debug, PartialEq, Eq)]
pub enum Asked {
    /// The catalogue, with a run of so many words, the stretch of the SVID, and the mended file,
    /// with room for so many bytes.
    Catalogue { words: u16, svid: u16, room: u16 },
    /// The record at the offset.
    Record { offset: u16 },
}

impl File {
    pub fn of(asked: Asked, bytes: Vec<u8>) -> Self {
        let length = u16::try_from(bytes.len()).expect("a file has at most 4,096 bytes");
        File {
            asked,
            length,
            bytes,
        }
    }

    pub fn take(input: &mut impl BufRead) -> Result<Self, Stop> {
        let asked = match take_kind(input)? {
            CATALOGUE => Asked::Catalogue {
                words: take_number(input)?,
                svid: take_number(input)?,
                room: take_number(input)?,
            },
            RECORD => Asked::Record {
                offset: take_number(input)?,
            },
            _ => return Err(Stop::UnknownKind),
        };
        let length = take_number(input)?;
        let bytes = take_run(input, length.min(MOST_FILE_BYTES))?;
        Ok(File {
            asked,
            length,
            bytes,
        })
    }

    pub fn put(&self, output: &mut impl Write) -> io::Result<()> {
        match self.asked {
            Asked::Catalogue { words, svid, room } => {
                output.write_all(&[CATALOGUE])?;
                put_numbers(&[words, svid, room], output)?;
            }
            Asked::Record { offset } => {
                output.write_all(&[RECORD])?;
                put_numbers(&[offset], output)?;
            }
        }
        put_numbers(&[self.length], output)?;
        output.write_all(&self.bytes)
    }
}

fn put_numbers(numbers: &[u16], output: &mut impl Write) -> io::Result<()> {
    numbers
        .iter()
        .try_for_each(|number| output.write_all(&number.to_le_bytes()))
}

fn take_number(input: &mut impl Read) -> Result<u16, Stop> {
    Ok(u16::from_le_bytes(take_bytes(input)?))
}
