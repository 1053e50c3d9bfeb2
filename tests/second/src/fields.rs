//! The fields that lines about a laptop have in common, as text without a space.

use crate::digest;
use crate::laptop::{Candidate, Laptop, Reason, Told};
use crate::messages::Request;
use crate::side::Side;

/// What a field holds where there is nothing to tell.
pub const NOTHING: &str = "-";
pub const NO_CANDIDATE: &str = "none";
pub const LIST_OPEN: &str = "open";
pub const LIST_DONE: &str = "done";

/// The text, or `-` if there is none.
pub fn or_nothing(text: Option<String>) -> String {
    text.unwrap_or_else(|| NOTHING.to_string())
}

/// `none`, `open` and the number of SVIDs, or `done`, that number and how many have modes.
pub fn candidate(candidate: &Candidate) -> String {
    match candidate {
        Candidate::None => NO_CANDIDATE.to_string(),
        Candidate::ListOpen(gathered) => format!("{LIST_OPEN}:{}", gathered.svids.len()),
        Candidate::ListDone(gathered) => {
            let (svids, filled) = (gathered.svids.len(), gathered.mode_counts.len());
            format!("{LIST_DONE}:{svids}:{filled}")
        }
    }
}

pub fn request(request: Request) -> String {
    let Request {
        svid,
        command,
        position,
    } = request;
    format!("{svid:04X}:{command}:{position}")
}

pub fn held_count(laptop: &Laptop, side: Side) -> String {
    or_nothing(laptop.held(side).map(|held| held.svids.len().to_string()))
}

pub fn digest_of(bytes: &[u8]) -> String {
    format!("{:08X}", digest::of_bytes(bytes))
}

pub fn told(told: Told) -> String {
    match told {
        Told::Attention { message, .. } => {
            let count = message.objects.as_slice().len();
            let object = message.objects.words()[0];
            let (svid, position) = (message.svid, message.position);
            format!("attention:{svid:04X}:{position}:{count}:{object:08X}")
        }
        Told::Unmarked {
            request, reason, ..
        } => {
            let word = match reason {
                Reason::Nak => "nak",
                Reason::Busy => "busy",
                Reason::Timer => "timer",
                Reason::ProtocolError => "error",
            };
            format!("{word}:{}", self::request(request))
        }
    }
}
