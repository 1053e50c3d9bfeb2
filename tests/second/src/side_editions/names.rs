//! The names, and the list of those that a stream must reach.

use crate::edition::{Edition, OURS};
use crate::messages::{self, Message, ACK, ENTER, EXIT, IDENTITY, LAST_MINOR, MODES, SVIDS};
use crate::refusals::{AWAITING, BLOCKED, NOT_HELD, NOT_STRUCTURED, UNREAD_MAJOR, WRONG_SHAPE};
use crate::side::Side;

/// How Identity comes to nothing.
pub const NAK: &str = "NAK";
pub const BUSY: &str = "BUSY";
pub const TIMER: &str = "a timer";
pub const PROTOCOL_ERROR: &str = "a protocol error";
/// How a candidate is lost.
pub const DROP: &str = "drop";
pub const VOIDED: &str = "refusal 8";
pub const NO_END: &str = "refusal 14";
pub const LATE_PAGE: &str = "a late page";

const ENDS: [&str; 4] = [NAK, BUSY, TIMER, PROTOCOL_ERROR];
const LOSSES: [&str; 3] = [DROP, VOIDED, LATE_PAGE];
/// The editions below ours.
const BELOW: [Edition; 2] = [Edition::OneZero, Edition::TwoZero];
const LAST_READ_MAJOR: u8 = 1;

/// Every name, each side's after the other.
pub fn names() -> Vec<String> {
    Side::BOTH.into_iter().flat_map(names_of).collect()
}

fn names_of(side: Side) -> Vec<String> {
    let mut names = vec![request(side, IDENTITY, OURS)];
    for edition in Edition::ALL {
        names.extend([SVIDS, MODES, ENTER, EXIT].map(|command| request(side, command, edition)));
        names.push(identity_sent(side, edition));
        names.extend([false, true].map(|was_unanswered| identity(side, edition, was_unanswered)));
        for other in edition.others() {
            names.extend(names_at_two(side, edition, other));
        }
    }
    for edition in BELOW {
        names.extend(ENDS.map(|end| enter_after_end(side, edition, end)));
        names.extend(LOSSES.map(|how| enter_after_loss(side, edition, how)));
        names.extend([AWAITING, NOT_HELD, BLOCKED].map(|refusal| refused(side, refusal, edition)));
        let unread_refusals = [NOT_STRUCTURED, UNREAD_MAJOR, WRONG_SHAPE];
        names.extend(unread_refusals.map(|refusal| unread(side, refusal, edition)));
    }
    names.push(enter_after_loss(side, Edition::OneZero, NO_END));
    let versions =
        (0..=LAST_READ_MAJOR).flat_map(|major| (0..=LAST_MINOR).map(move |minor| (major, minor)));
    names.extend(versions.map(|of_header| version(side, of_header)));
    names
}

/// Those of an event at one edition while the side, or the other, is at another.
fn names_at_two(side: Side, edition: Edition, other: Edition) -> Vec<String> {
    let mut names = vec![
        late_identity(side, edition, other),
        attention(side, edition, other),
        beside(side, edition, other),
    ];
    let acks = [SVIDS, MODES, ENTER, EXIT];
    names.extend(acks.map(|command| acknowledged(side, command, edition, other)));
    names.extend([messages::NAK, messages::BUSY].map(|kind| answered(side, kind, edition, other)));
    names
}

pub fn request(side: Side, command: u8, edition: Edition) -> String {
    format!("request {command} to the {side} at {edition}")
}

pub fn identity_sent(side: Side, before: Edition) -> String {
    format!("Identity to the {side} after {before}")
}

pub fn identity(side: Side, edition: Edition, was_unanswered: bool) -> String {
    let after = match was_unanswered {
        true => ", after an Identity without an answer",
        false => "",
    };
    format!("Identity ACK at {edition} taken from the {side}{after}")
}

pub fn late_identity(side: Side, edition: Edition, at: Edition) -> String {
    format!("Identity ACK at {edition} refused 6 from the {side} at {at}")
}

/// An awaited answer other than Identity's.
pub fn answer(side: Side, message: &Message, at: Edition) -> String {
    match message.kind {
        ACK => acknowledged(side, message.command, message.edition, at),
        kind => answered(side, kind, message.edition, at),
    }
}

fn answered(side: Side, kind: u8, edition: Edition, at: Edition) -> String {
    format!("answer of type {kind} at {edition} awaited from the {side} at {at}")
}

fn acknowledged(side: Side, command: u8, edition: Edition, at: Edition) -> String {
    format!("ACK of command {command} at {edition} awaited from the {side} at {at}")
}

pub fn attention(side: Side, edition: Edition, at: Edition) -> String {
    format!("Attention at {edition} from the {side} at {at}")
}

pub fn beside(side: Side, edition: Edition, others: Edition) -> String {
    let other = side.other();
    format!("request to the {side} at {edition} with the {other} at {others}")
}

pub fn enter_after_end(side: Side, before: Edition, end: &str) -> String {
    format!("enter to the {side} after {end} for Identity, which followed {before}")
}

/// Two hundred pages are many, so that one edition below ours is enough.
pub fn enter_after_loss(side: Side, edition: Edition, how: &str) -> String {
    match how {
        NO_END if edition < OURS => format!("enter to the {side} below {OURS} after {how}"),
        _ => format!("enter to the {side} at {edition} after {how}"),
    }
}

pub fn refused(side: Side, refusal: u8, at: Edition) -> String {
    format!("call for the {side} at {at} refused {refusal}")
}

pub fn unread(side: Side, refusal: u8, at: Edition) -> String {
    format!("message from the {side} at {at} refused {refusal}")
}

pub fn version(side: Side, (major, minor): (u8, u8)) -> String {
    format!("major {major} minor {minor} accepted from the {side}")
}
