//! One event at the ends or on a link, and its form as bytes.

use super::Start;
use crate::call::{Call, DROP, ENTER, EXIT, NEXT, PROTOCOL_ERROR, RESPONSE_TIMER, START_OVER};
use crate::side::Side;
use crate::stream::{take_kind, Stop};
use std::io::{self, BufRead, Read, Write};

const TIMER: u8 = RESPONSE_TIMER;
const REQUEST_REACHES: u8 = 0x50;
const REQUEST_LOST: u8 = 0x51;
const GIVE: u8 = 0x52;
const BUSY: u8 = 0x53;
const ANSWER_ARRIVES: u8 = 0x54;
const ANSWER_LOST: u8 = 0x55;
const SENT: u8 = 0x56;
const FAILED: u8 = 0x57;
const NEW_STREAM: u8 = 0x58;

/// What stands next in the input. A new stream is followed by what it begins with.
#[derive(Clone, Copy, Debug, PartialEq, Eq)]
pub enum Item {
    Event(Event),
    NewStream,
}

#[derive(Clone, Copy, Debug, PartialEq, Eq)]
pub enum Event {
    /// An owner's call, or a protocol error.
    Call(Call),
    /// The timer of the awaited command.
    Timer,
    /// On one side.
    On(Side, LinkEvent),
}

/// On a side's link, or at its far end.
#[derive(Clone, Copy, Debug, PartialEq, Eq)]
pub enum LinkEvent {
    RequestReaches,
    RequestLost,
    /// Policy gives what the dock's data holds.
    Give,
    /// Policy says BUSY.
    Busy,
    AnswerArrives,
    AnswerLost,
    /// The dock hears that its answer is confirmed.
    Sent,
    /// The dock hears that its answer is not confirmed.
    Failed,
}

impl Item {
    pub fn take(input: &mut impl BufRead) -> Result<Self, Stop> {
        Ok(match take_kind(input)? {
            NEW_STREAM => Item::NewStream,
            kind => Item::Event(Event::take(kind, input)?),
        })
    }
}

/// Puts the streams one after the other.
pub fn put_streams(streams: &[(Start, Vec<Event>)], output: &mut impl Write) -> io::Result<()> {
    for (place, (start, events)) in streams.iter().enumerate() {
        if place > 0 {
            output.write_all(&[NEW_STREAM])?;
        }
        start.put(output)?;
        for event in events {
            event.put(output)?;
        }
    }
    Ok(())
}

impl Event {
    /// Every event but a call, which is always permitted.
    pub fn beside_calls() -> Vec<Event> {
        let on_side = |side| LinkEvent::ALL.map(|event| Event::On(side, event));
        let on_links = Side::BOTH.into_iter().flat_map(on_side);
        [Event::Timer].into_iter().chain(on_links).collect()
    }

    /// The event that this byte opens.
    fn take(kind: u8, input: &mut impl Read) -> Result<Self, Stop> {
        let (side, of_partner) = Side::of_kind(kind);
        Ok(match (kind, of_partner) {
            (TIMER, _) => Event::Timer,
            (PROTOCOL_ERROR, _) | (_, NEXT | START_OVER | DROP | ENTER | EXIT) => {
                Event::Call(Call::take(kind, input)?)
            }
            _ => Event::On(side, LinkEvent::of_kind(of_partner)?),
        })
    }

    pub fn kind(&self) -> u8 {
        match self {
            Event::Call(call) => call.kind(),
            Event::Timer => TIMER,
            Event::On(side, event) => side.twin(event.kind()),
        }
    }

    fn put(&self, output: &mut impl Write) -> io::Result<()> {
        output.write_all(&[self.kind()])?;
        match self {
            Event::Call(call) => call.put_body(output),
            _ => Ok(()),
        }
    }
}

impl LinkEvent {
    pub const ALL: [LinkEvent; 8] = [
        LinkEvent::RequestReaches,
        LinkEvent::RequestLost,
        LinkEvent::Give,
        LinkEvent::Busy,
        LinkEvent::AnswerArrives,
        LinkEvent::AnswerLost,
        LinkEvent::Sent,
        LinkEvent::Failed,
    ];

    /// The event of which this is the partner's kind.
    fn of_kind(kind: u8) -> Result<Self, Stop> {
        let event = Self::ALL.into_iter().find(|event| event.kind() == kind);
        event.ok_or(Stop::UnknownKind)
    }

    /// The partner's kind of it.
    fn kind(&self) -> u8 {
        match self {
            LinkEvent::RequestReaches => REQUEST_REACHES,
            LinkEvent::RequestLost => REQUEST_LOST,
            LinkEvent::Give => GIVE,
            LinkEvent::Busy => BUSY,
            LinkEvent::AnswerArrives => ANSWER_ARRIVES,
            LinkEvent::AnswerLost => ANSWER_LOST,
            LinkEvent::Sent => SENT,
            LinkEvent::Failed => FAILED,
        }
    }
}
