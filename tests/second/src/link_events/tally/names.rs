//! The names of what is counted. All but a few are of one side, and begin with it.

use super::editions;
use crate::link_events::{Event, Start};
use crate::pages::{MOST_SVIDS, PAGE_SVIDS};
use crate::refusals::{ACCEPTED, AWAITING, BLOCKED, NOT_AWAITED, NOT_HELD, NOT_TAKEN_NOW, NO_END};
use crate::side::Side;

/// Every refusal that the ends give over a link; 14 needs a page before the last.
const REFUSALS: [u8; 6] = [ACCEPTED, NOT_AWAITED, AWAITING, NOT_HELD, BLOCKED, NO_END];
pub const STREAMS: &str = "streams";
pub const BOTH_COMPLETED: &str = "streams in which both sides complete";
pub const COMPLETED: &str = "gatherings completed";
pub const UNCONFIRMED: &str = "gatherings completed with confirmations lost";
pub const COMPLETED_BESIDE: &str = "gatherings completed beside the other side's candidate";
pub const LOST_CONFIRMATION: &str = "confirmation lost";
pub const LATE_ALONE: &str = "late answer with nothing awaited";
pub const LATE_BESIDE: &str = "late answer while the other side waits";
pub const DROPPED_BESIDE: &str = "open list dropped by a late page while the other side waits";
pub const LATE_TAKEN: &str = "late answer taken for a newer request";
pub const BUSY_TAKEN: &str = "BUSY taken";
pub const SENT_FIRST: &str = "sent heard before the answer arrives";
pub const FAILED_FIRST: &str = "failed heard before the answer arrives";
pub const ENTER_SENT: &str = "enter sent";
pub const EXIT_SENT: &str = "exit sent";
pub const ASKED_BESIDE: &str = "next or start over sent with a mode of the other side entered";
pub const ENTERED_BESIDE: &str = "enter sent beside the other side's candidate";
pub const REFUSED_BESIDE: &str = "call refused 7 because the other side waits";
pub const TIMER_ENDED: &str = "wait ended by the timer";
pub const ERROR_ENDED: &str = "wait ended by a protocol error";

/// What each side has.
const OF_SIDE: [&str; 18] = [
    COMPLETED,
    UNCONFIRMED,
    COMPLETED_BESIDE,
    LOST_CONFIRMATION,
    LATE_ALONE,
    LATE_BESIDE,
    DROPPED_BESIDE,
    LATE_TAKEN,
    BUSY_TAKEN,
    SENT_FIRST,
    FAILED_FIRST,
    ENTER_SENT,
    EXIT_SENT,
    ASKED_BESIDE,
    ENTERED_BESIDE,
    REFUSED_BESIDE,
    TIMER_ENDED,
    ERROR_ENDED,
];

/// What one long stream reaches. Not each of them enters a mode of each side.
pub fn of_one_stream(start: &Start) -> Vec<String> {
    let mut out_of_reach = Vec::new();
    for side in Side::BOTH {
        let length = start[side].data.svids.len();
        let lost = [UNCONFIRMED, LOST_CONFIRMATION].map(|name| of_side(side, name));
        let modes = [ENTER_SENT, EXIT_SENT, ASKED_BESIDE, ENTERED_BESIDE];
        out_of_reach.extend(modes.map(|name| of_side(side, name)));
        out_of_reach.extend((0..=MOST_SVIDS).map(|length| completed(side, length)));
        if length < PAGE_SVIDS {
            out_of_reach.extend(lost);
            out_of_reach.push(refusal(side, NO_END));
        }
        if length == 0 {
            out_of_reach.extend([of_side(side, DROPPED_BESIDE), refusal(side, BLOCKED)]);
        }
    }
    let mut names = of_any_edition();
    names.retain(|name| !out_of_reach.contains(name));
    names.extend(editions::of_one_stream(start));
    names
}

/// All that is counted.
pub fn all() -> Vec<String> {
    [of_any_edition(), editions::all()].concat()
}

/// Each refusal, permission, sort of event and gathering.
fn of_any_edition() -> Vec<String> {
    let mut names = [STREAMS, BOTH_COMPLETED].map(str::to_string).to_vec();
    for side in Side::BOTH {
        names.extend(OF_SIDE.map(|name| of_side(side, name)));
        names.extend(REFUSALS.map(|number| refusal(side, number)));
    }
    names.push(refusal(Side::Partner, NOT_TAKEN_NOW));
    for event in Event::beside_calls() {
        names.extend([true, false].map(|permitted| permission(&event, permitted)));
    }
    for side in Side::BOTH {
        names.extend((0..=MOST_SVIDS).map(|length| completed(side, length)));
    }
    names
}

pub fn of_side(side: Side, name: &str) -> String {
    format!("{side}: {name}")
}

/// 9 is given when no side waits, and then counts as the partner's.
pub fn refusal(side: Side, number: u8) -> String {
    of_side(side, &format!("refusal {number}"))
}

pub fn completed(side: Side, length: usize) -> String {
    of_side(side, &format!("gathering of {length} completed"))
}

pub fn permission(event: &Event, permitted: bool) -> String {
    let word = if permitted {
        "permitted"
    } else {
        "not permitted"
    };
    format!("kind {:02X} {word}", event.kind())
}
