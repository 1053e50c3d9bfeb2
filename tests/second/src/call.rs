//! A call of the laptop end other than a message: the owner's calls, each for its side, the timers and
//! the protocol error, with their form as bytes (01, "Catalogue bytes and the watcher program", and
//! 02, R-4).

use crate::laptop::{Answer, Laptop, Runs};
use crate::messages;
use crate::side::Side;
use crate::stream::{take_bytes, Stop};
use std::io::{self, Read, Write};

pub const NEXT: u8 = 0x40;
pub const START_OVER: u8 = 0x41;
pub const DROP: u8 = 0x42;
pub const RESPONSE_TIMER: u8 = 0x43;
pub const ENTRY_TIMER: u8 = 0x44;
pub const EXIT_TIMER: u8 = 0x45;
pub const PROTOCOL_ERROR: u8 = 0x46;
pub const ENTER: u8 = 0x47;
pub const EXIT: u8 = 0x48;

#[derive(Clone, Copy, Debug, PartialEq, Eq)]
pub enum Call {
    Next(Side),
    StartOver(Side),
    Drop(Side),
    ResponseTimer,
    EntryTimer,
    ExitTimer,
    ProtocolError,
    Enter { side: Side, svid: u16, position: u8 },
    Exit { side: Side, svid: u16, position: u8 },
}

impl Call {
    /// The call that this byte opens: an owner's call has a cable twin, and no other.
    pub fn take(kind: u8, input: &mut impl Read) -> Result<Self, Stop> {
        let (side, of_partner) = Side::of_kind(kind);
        Ok(match of_partner {
            NEXT => Call::Next(side),
            START_OVER => Call::StartOver(side),
            DROP => Call::Drop(side),
            ENTER => {
                let (svid, position) = take_mode(input)?;
                Call::Enter {
                    side,
                    svid,
                    position,
                }
            }
            EXIT => {
                let (svid, position) = take_mode(input)?;
                Call::Exit {
                    side,
                    svid,
                    position,
                }
            }
            _ => Self::without_side(kind)?,
        })
    }

    /// The call of this kind that no side's owner makes.
    fn without_side(kind: u8) -> Result<Self, Stop> {
        Ok(match kind {
            RESPONSE_TIMER => Call::ResponseTimer,
            ENTRY_TIMER => Call::EntryTimer,
            EXIT_TIMER => Call::ExitTimer,
            PROTOCOL_ERROR => Call::ProtocolError,
            _ => return Err(Stop::UnknownKind),
        })
    }

    /// The timer of the awaited command.
    pub fn timer(command: u8) -> Self {
        match command {
            messages::ENTER => Call::EntryTimer,
            messages::EXIT => Call::ExitTimer,
            _ => Call::ResponseTimer,
        }
    }

    /// The side of an owner's call. A timer or a protocol error says none.
    pub fn side(&self) -> Option<Side> {
        match *self {
            Call::Next(side) | Call::StartOver(side) | Call::Drop(side) => Some(side),
            Call::Enter { side, .. } | Call::Exit { side, .. } => Some(side),
            _ => None,
        }
    }

    /// The same call for the other side, if it says one.
    pub fn for_other_side(mut self) -> Self {
        match &mut self {
            Call::Next(side) | Call::StartOver(side) | Call::Drop(side) => *side = side.other(),
            Call::Enter { side, .. } | Call::Exit { side, .. } => *side = side.other(),
            _ => {}
        }
        self
    }

    pub fn kind(&self) -> u8 {
        match self {
            Call::Next(side) => side.twin(NEXT),
            Call::StartOver(side) => side.twin(START_OVER),
            Call::Drop(side) => side.twin(DROP),
            Call::ResponseTimer => RESPONSE_TIMER,
            Call::EntryTimer => ENTRY_TIMER,
            Call::ExitTimer => EXIT_TIMER,
            Call::ProtocolError => PROTOCOL_ERROR,
            Call::Enter { side, .. } => side.twin(ENTER),
            Call::Exit { side, .. } => side.twin(EXIT),
        }
    }

    /// Puts what follows the kind.
    pub fn put_body(&self, output: &mut impl Write) -> io::Result<()> {
        match self {
            Call::Enter { svid, position, .. } | Call::Exit { svid, position, .. } => {
                output.write_all(&svid.to_le_bytes())?;
                output.write_all(&[*position])
            }
            _ => Ok(()),
        }
    }

    /// Whether the call is lent an output buffer.
    pub fn may_send(&self) -> bool {
        self.is_owners() && !matches!(self, Call::Drop(_))
    }

    /// Whether the call is the owner's, and so lent both runs of its side.
    pub fn is_owners(&self) -> bool {
        self.side().is_some()
    }

    /// An owner's call is lent the runs of its own side.
    pub fn make(&self, laptop: &mut Laptop, runs: &mut Runs, out: &mut [u8]) -> Answer {
        match *self {
            Call::Next(side) => laptop.next(side, runs, out),
            Call::StartOver(side) => laptop.start_over(side, runs, out),
            Call::Drop(side) => laptop.drop(side, runs),
            Call::ResponseTimer => laptop.response_timer(),
            Call::EntryTimer => laptop.entry_timer(),
            Call::ExitTimer => laptop.exit_timer(),
            Call::ProtocolError => laptop.protocol_error(),
            Call::Enter {
                side,
                svid,
                position,
            } => laptop.enter(side, svid, position, runs, out),
            Call::Exit {
                side,
                svid,
                position,
            } => laptop.exit(side, svid, position, runs, out),
        }
    }
}

fn take_mode(input: &mut impl Read) -> Result<(u16, u8), Stop> {
    let [low, high, position] = take_bytes(input)?;
    Ok((u16::from_le_bytes([low, high]), position))
}
