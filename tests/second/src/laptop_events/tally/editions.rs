//! Names for what laptop events reach by edition (02, R-5) that the watcher's cannot or need not: calls
//! refused for what is lent, damaged messages, and both sides at each pair of editions.

use crate::call::Call;
use crate::edition::{Edition, OURS};
use crate::laptop::{Candidate, Laptop};
use crate::laptop_events::{Event, Outcome};
use crate::messages::{version_of, LAST_MAJOR, LAST_MINOR};
use crate::refusals::{
    AWAITING, BLOCKED, NOT_STRUCTURED, NOT_WHOLE_OBJECTS, SHORT_BUFFER, UNREAD_MAJOR, WRONG_SHAPE,
};
use crate::side::Side;

const FIRST_UNREAD_MAJOR: u8 = 2;
/// The refusals of a message that is not read, and those of an Identity that does not go out.
const DAMAGED: [u8; 4] = [NOT_WHOLE_OBJECTS, NOT_STRUCTURED, UNREAD_MAJOR, WRONG_SHAPE];
const IDENTITY_REFUSED: [u8; 3] = [AWAITING, SHORT_BUFFER, BLOCKED];

/// What an event led to, from how the laptop stood before it to how it stands after.
pub fn names_of(event: &Event, before: &Laptop, outcome: &Outcome, after: &Laptop) -> Vec<String> {
    let [partner, cable] = Side::BOTH.map(|side| after.edition(side));
    let mut names = vec![sides_at(partner, cable)];
    match event {
        Event::Message { side, bytes } if DAMAGED.contains(&outcome.refusal) => {
            names.push(damaged(*side, outcome.refusal, before.edition(*side)));
            let version = version_of(bytes).filter(|_| outcome.refusal == UNREAD_MAJOR);
            names.extend(version.map(|version| unread(*side, version)));
        }
        Event::Call(call) if IDENTITY_REFUSED.contains(&outcome.refusal) => {
            let side = side_of_identity(*call, before);
            let name = side.map(|side| refused(side, outcome.refusal, before.edition(side)));
            names.extend(name);
        }
        _ => {}
    }
    names
}

/// The side to which the call would send Identity.
fn side_of_identity(call: Call, laptop: &Laptop) -> Option<Side> {
    match call {
        Call::StartOver(side) => Some(side),
        Call::Next(side) if *laptop.candidate(side) == Candidate::None => Some(side),
        _ => None,
    }
}

/// Every name.
pub fn names() -> Vec<String> {
    let mut names = Vec::new();
    for partner in Edition::ALL {
        names.extend(Edition::ALL.map(|cable| sides_at(partner, cable)));
    }
    for side in Side::BOTH {
        for edition in Edition::ALL {
            names.extend(DAMAGED.map(|refusal| damaged(side, refusal, edition)));
        }
        for edition in Edition::ALL.into_iter().filter(|&edition| edition < OURS) {
            names.extend(IDENTITY_REFUSED.map(|refusal| refused(side, refusal, edition)));
        }
        for major in FIRST_UNREAD_MAJOR..=LAST_MAJOR {
            names.extend((0..=LAST_MINOR).map(|minor| unread(side, (major, minor))));
        }
    }
    names
}

fn sides_at(partner: Edition, cable: Edition) -> String {
    format!("event with the partner at {partner} and the cable at {cable}")
}

fn damaged(side: Side, refusal: u8, at: Edition) -> String {
    format!("damaged message from the {side} at {at} refused {refusal}")
}

fn unread(side: Side, (major, minor): (u8, u8)) -> String {
    format!("major {major} minor {minor} refused from the {side}")
}

fn refused(side: Side, refusal: u8, at: Edition) -> String {
    format!("Identity to the {side} at {at} refused {refusal}")
}
