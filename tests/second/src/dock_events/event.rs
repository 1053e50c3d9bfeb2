//! One event of the stream that drives a dock end, and its form as bytes.

use crate::dock::{PolicyAnswer, Request};
use crate::messages::{bytes_of, flip_reserved, flip_reserved_of};
use crate::stream::{count_byte, put_objects, take_bytes, take_kind, take_objects, take_run, Stop};
use std::io::{self, BufRead, Read, Write};

const BYTES: u8 = 0x08;
const LOAD: u8 = 0x20;
const GIVE: u8 = 0x21;
const NAK: u8 = 0x22;
const BUSY: u8 = 0x23;
const SENT: u8 = 0x30;
const FAILED: u8 = 0x31;
const ROOM: u8 = 0x40;

/// Every byte that opens an event; 1 to 7 are the number of a message's objects.
pub const KINDS: [u8; 15] = [
    1, 2, 3, 4, 5, 6, 7, BYTES, LOAD, GIVE, NAK, BUSY, SENT, FAILED, ROOM,
];

#[derive(Clone, Debug, PartialEq, Eq)]
pub enum Event {
    /// A message of 1 to 7 objects.
    Objects {
        objects: Vec<u32>,
    },
    /// A message of any length.
    Bytes {
        bytes: Vec<u8>,
    },
    Load {
        identity: Vec<u32>,
        svids: Vec<u16>,
    },
    Policy {
        answer: PolicyAnswer,
        request: Request,
        objects: Vec<u32>,
    },
    Sent,
    Failed,
    /// The output buffer has that many bytes from here on.
    Room {
        room: u8,
    },
}

impl Event {
    /// The bytes of a message.
    pub fn message(&self) -> Option<Vec<u8>> {
        match self {
            Event::Objects { objects } => Some(bytes_of(objects)),
            Event::Bytes { bytes } => Some(bytes.clone()),
            _ => None,
        }
    }

    /// The same event, a message with bit 5 of its header the other way round.
    pub fn with_reserved_flipped(mut self) -> Self {
        match &mut self {
            Event::Objects { objects } => flip_reserved_of(objects),
            Event::Bytes { bytes } => flip_reserved(bytes),
            _ => {}
        }
        self
    }

    pub fn take(input: &mut impl BufRead) -> Result<Self, Stop> {
        let kind = take_kind(input)?;
        match kind {
            1..=7 => {
                let objects = take_objects(input, kind)?;
                Ok(Event::Objects { objects })
            }
            BYTES => Self::take_message_bytes(input),
            LOAD => Self::take_load(input),
            GIVE => Self::take_policy(PolicyAnswer::Give, input),
            NAK => Self::take_policy(PolicyAnswer::Nak, input),
            BUSY => Self::take_policy(PolicyAnswer::Busy, input),
            SENT => Ok(Event::Sent),
            FAILED => Ok(Event::Failed),
            ROOM => {
                let [room] = take_bytes(input)?;
                Ok(Event::Room { room })
            }
            _ => Err(Stop::UnknownKind),
        }
    }

    fn take_message_bytes(input: &mut impl Read) -> Result<Self, Stop> {
        let [length] = take_bytes(input)?;
        let bytes = take_run(input, length)?;
        Ok(Event::Bytes { bytes })
    }

    fn take_load(input: &mut impl Read) -> Result<Self, Stop> {
        let [identity_count, svid_count] = take_bytes(input)?;
        let identity = take_objects(input, identity_count)?;
        let svids: Result<_, Stop> = (0..svid_count)
            .map(|_| Ok(u16::from_le_bytes(take_bytes(input)?)))
            .collect();
        let svids = svids?;
        Ok(Event::Load { identity, svids })
    }

    fn take_policy(answer: PolicyAnswer, input: &mut impl Read) -> Result<Self, Stop> {
        let [svid_low, svid_high, command, position, count] = take_bytes(input)?;
        let objects = take_objects(input, count)?;
        let request = Request {
            svid: u16::from_le_bytes([svid_low, svid_high]),
            command,
            position,
        };
        Ok(Event::Policy {
            answer,
            request,
            objects,
        })
    }

    pub fn kind(&self) -> u8 {
        match self {
            Event::Objects { objects } => count_byte(objects),
            Event::Bytes { .. } => BYTES,
            Event::Load { .. } => LOAD,
            Event::Policy { answer, .. } => match answer {
                PolicyAnswer::Give => GIVE,
                PolicyAnswer::Nak => NAK,
                PolicyAnswer::Busy => BUSY,
            },
            Event::Sent => SENT,
            Event::Failed => FAILED,
            Event::Room { .. } => ROOM,
        }
    }

    pub fn put(&self, output: &mut impl Write) -> io::Result<()> {
        output.write_all(&[self.kind()])?;
        match self {
            Event::Objects { objects } => put_objects(objects, output),
            Event::Bytes { bytes } => {
                output.write_all(&[count_byte(bytes)])?;
                output.write_all(bytes)
            }
            Event::Load { identity, svids } => {
                output.write_all(&[count_byte(identity), count_byte(svids)])?;
                put_objects(identity, output)?;
                svids
                    .iter()
                    .try_for_each(|svid| output.write_all(&svid.to_le_bytes()))
            }
            Event::Policy {
                request, objects, ..
            } => {
                output.write_all(&request.svid.to_le_bytes())?;
                output.write_all(&[request.command, request.position, count_byte(objects)])?;
                put_objects(objects, output)
            }
            Event::Sent | Event::Failed => Ok(()),
            Event::Room { room } => output.write_all(&[*room]),
        }
    }
}
