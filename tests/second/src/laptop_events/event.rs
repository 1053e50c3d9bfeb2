//! One event of the stream that drives a laptop end, and its form as bytes.

use crate::call::Call;
use crate::messages::flip_reserved;
use crate::side::Side;
use crate::stream::{count_byte, take_bytes, take_kind, take_run, Stop};
use std::io::{self, BufRead, Read, Write};

const MESSAGE: u8 = 0x01;
const REPORT: u8 = 0x49;
const WRITE_CATALOGUE: u8 = 0x4A;
const LENGTHS: u8 = 0x4B;
const NEW_STREAM: u8 = 0x4C;

/// A greater number in the stream counts as this one.
pub const MOST_MESSAGE_BYTES: u8 = 40;
pub const MOST_CATALOGUE_ROOM: u16 = 2500;
pub const WHOLE_RUN: u16 = 440;

/// What stands next in the input.
#[derive(Clone, Debug, PartialEq, Eq)]
pub enum Item {
    Event(Event),
    NewStream,
}

#[derive(Clone, Debug, PartialEq, Eq)]
pub enum Event {
    /// A message of any length up to 40 bytes.
    Message {
        side: Side,
        bytes: Vec<u8>,
    },
    Call(Call),
    Report {
        side: Side,
        svid: u16,
    },
    /// The held catalogue is written to an output buffer of so many bytes, at most 2,500.
    WriteCatalogue {
        side: Side,
        room: u16,
    },
    Lengths {
        side: Side,
        lengths: Lengths,
    },
}

/// How much later calls of a side are lent: bytes of the output buffer and words of each run, at
/// most 440.
#[derive(Clone, Copy, Debug, PartialEq, Eq)]
pub struct Lengths {
    pub output: u8,
    pub candidate: u16,
    pub held: u16,
}

impl Item {
    pub fn take(input: &mut impl BufRead) -> Result<Self, Stop> {
        Ok(match take_kind(input)? {
            NEW_STREAM => Item::NewStream,
            kind => Item::Event(Event::take(kind, input)?),
        })
    }
}

/// Puts the streams one after the other.
pub fn put_streams(streams: &[Vec<Event>], output: &mut impl Write) -> io::Result<()> {
    for (place, events) in streams.iter().enumerate() {
        if place > 0 {
            output.write_all(&[NEW_STREAM])?;
        }
        for event in events {
            event.put(output)?;
        }
    }
    Ok(())
}

impl Event {
    /// The same event, a message with bit 5 of its header the other way round.
    pub fn with_reserved_flipped(mut self) -> Self {
        if let Event::Message { bytes, .. } = &mut self {
            flip_reserved(bytes);
        }
        self
    }

    /// The event that this byte opens.
    fn take(kind: u8, input: &mut impl Read) -> Result<Self, Stop> {
        let (side, of_partner) = Side::of_kind(kind);
        Ok(match of_partner {
            MESSAGE => Self::take_message(side, input)?,
            REPORT => {
                let svid = u16::from_le_bytes(take_bytes(input)?);
                Event::Report { side, svid }
            }
            WRITE_CATALOGUE => {
                let room = u16::from_le_bytes(take_bytes(input)?);
                Event::WriteCatalogue { side, room }
            }
            LENGTHS => {
                let lengths = Lengths::take(input)?;
                Event::Lengths { side, lengths }
            }
            _ => Event::Call(Call::take(kind, input)?),
        })
    }

    fn take_message(side: Side, input: &mut impl Read) -> Result<Self, Stop> {
        let [length] = take_bytes(input)?;
        let bytes = take_run(input, length.min(MOST_MESSAGE_BYTES))?;
        Ok(Event::Message { side, bytes })
    }

    /// The side of the kind. A timer or a protocol error says none.
    pub fn side(&self) -> Option<Side> {
        match self {
            Event::Message { side, .. }
            | Event::Report { side, .. }
            | Event::WriteCatalogue { side, .. }
            | Event::Lengths { side, .. } => Some(*side),
            Event::Call(call) => call.side(),
        }
    }

    pub fn kind(&self) -> u8 {
        match self {
            Event::Message { side, .. } => side.twin(MESSAGE),
            Event::Call(call) => call.kind(),
            Event::Report { side, .. } => side.twin(REPORT),
            Event::WriteCatalogue { side, .. } => side.twin(WRITE_CATALOGUE),
            Event::Lengths { side, .. } => side.twin(LENGTHS),
        }
    }

    fn put(&self, output: &mut impl Write) -> io::Result<()> {
        output.write_all(&[self.kind()])?;
        match self {
            Event::Message { bytes, .. } => {
                output.write_all(&[count_byte(bytes)])?;
                output.write_all(bytes)
            }
            Event::Call(call) => call.put_body(output),
            Event::Report { svid, .. } => output.write_all(&svid.to_le_bytes()),
            Event::WriteCatalogue { room, .. } => output.write_all(&room.to_le_bytes()),
            Event::Lengths { lengths, .. } => lengths.put(output),
        }
    }
}

impl Lengths {
    /// What is lent at the start.
    pub const WHOLE: Lengths = Lengths {
        output: 32,
        candidate: WHOLE_RUN,
        held: WHOLE_RUN,
    };

    fn take(input: &mut impl Read) -> Result<Self, Stop> {
        let [output] = take_bytes(input)?;
        let candidate = u16::from_le_bytes(take_bytes(input)?);
        let held = u16::from_le_bytes(take_bytes(input)?);
        Ok(Lengths {
            output,
            candidate,
            held,
        })
    }

    fn put(&self, output: &mut impl Write) -> io::Result<()> {
        output.write_all(&[self.output])?;
        output.write_all(&self.candidate.to_le_bytes())?;
        output.write_all(&self.held.to_le_bytes())
    }
}
