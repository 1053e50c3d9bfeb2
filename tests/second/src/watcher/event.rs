//! One laptop event, and its form as bytes.

use crate::call::{
    Call, DROP, ENTER, ENTRY_TIMER, EXIT, EXIT_TIMER, NEXT, PROTOCOL_ERROR, RESPONSE_TIMER,
    START_OVER,
};
use crate::messages::flip_reserved_of;
use crate::side::Side;
use crate::stream::{count_byte, put_objects, take_kind, take_objects, Stop};
use std::io::{self, BufRead, Write};

/// The kinds that say a side, as the partner's; 1 to 7 are the number of a message's objects.
const KINDS_OF_SIDE: [u8; 12] = [1, 2, 3, 4, 5, 6, 7, NEXT, START_OVER, DROP, ENTER, EXIT];
const KINDS_WITHOUT_SIDE: [u8; 4] = [RESPONSE_TIMER, ENTRY_TIMER, EXIT_TIMER, PROTOCOL_ERROR];

/// Every byte that opens an event.
pub fn kinds() -> Vec<u8> {
    let of_sides = Side::BOTH.map(|side| KINDS_OF_SIDE.map(|kind| side.twin(kind)));
    [&of_sides[0][..], &KINDS_WITHOUT_SIDE, &of_sides[1]].concat()
}

#[derive(Clone, Debug, PartialEq, Eq)]
pub enum Event {
    /// A message of 1 to 7 objects.
    Message {
        side: Side,
        objects: Vec<u32>,
    },
    Call(Call),
}

impl From<Call> for Event {
    fn from(call: Call) -> Self {
        Event::Call(call)
    }
}

impl Event {
    /// The same event, a message with bit 5 of its header the other way round.
    pub fn with_reserved_flipped(mut self) -> Self {
        if let Event::Message { objects, .. } = &mut self {
            flip_reserved_of(objects);
        }
        self
    }

    pub fn take(input: &mut impl BufRead) -> Result<Self, Stop> {
        let kind = take_kind(input)?;
        let (side, of_partner) = Side::of_kind(kind);
        Ok(match of_partner {
            1..=7 => {
                let objects = take_objects(input, of_partner)?;
                Event::Message { side, objects }
            }
            _ => Event::Call(Call::take(kind, input)?),
        })
    }

    /// The side of a message or an owner's call. A timer or a protocol error says none.
    pub fn side(&self) -> Option<Side> {
        match self {
            Event::Message { side, .. } => Some(*side),
            Event::Call(call) => call.side(),
        }
    }

    pub fn kind(&self) -> u8 {
        match self {
            Event::Message { side, objects } => side.twin(count_byte(objects)),
            Event::Call(call) => call.kind(),
        }
    }

    pub fn put(&self, output: &mut impl Write) -> io::Result<()> {
        output.write_all(&[self.kind()])?;
        match self {
            Event::Message { objects, .. } => put_objects(objects, output),
            Event::Call(call) => call.put_body(output),
        }
    }
}
