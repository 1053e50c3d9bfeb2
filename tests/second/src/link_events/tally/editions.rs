//! Names for what the events of a stream reach by edition (02, R-5), to be counted.

use super::names::of_side;
use super::Happened;
use crate::call::Call;
use crate::edition::{Edition, OURS};
use crate::link_events::{Event, LinkEvent, Start};
use crate::messages::{read, Message, ACK, BUSY, ENTER, EXIT, IDENTITY, NAK, SVIDS};
use crate::refusals::NOT_AWAITED;
use crate::side::{Side, Sides};

/// Those below ours.
const OLDER: [Edition; 2] = [Edition::OneZero, Edition::TwoZero];
/// How an Identity comes to nothing over a link.
const IN_VAIN: [&str; 3] = ["BUSY", "a timer", "a protocol error"];
pub const COMPLETED_APART: &str = "streams in which both sides complete at different editions";

/// How the last Identity of each side went, in a stream.
#[derive(Default)]
pub struct Editions(Sides<LastIdentity>);

#[derive(Default)]
struct LastIdentity {
    /// The side's edition before it went out.
    edition_before: Edition,
    /// How it came to nothing, if it did.
    in_vain: Option<&'static str>,
}

impl Editions {
    pub fn names_of(&mut self, happened: &Happened) -> Vec<String> {
        match happened.event {
            Event::Call(call) if happened.is_accepted() => self.of_call(call, happened),
            Event::Timer if happened.is_accepted() => self.of_wait_ended(IN_VAIN[1], happened),
            Event::On(_, LinkEvent::AnswerArrives) => match happened.answer() {
                Some(answer) if happened.is_accepted() => self.of_taken(&answer, happened),
                Some(answer) => of_refused(&answer, happened),
                None => Vec::new(),
            },
            _ => Vec::new(),
        }
    }

    fn of_call(&mut self, call: &Call, happened: &Happened) -> Vec<String> {
        if matches!(call, Call::ProtocolError) {
            return self.of_wait_ended(IN_VAIN[2], happened);
        }
        let [was, now] = [happened.before, happened.now].map(|sides| &sides[happened.side]);
        let request = now.request.as_deref().and_then(|bytes| read(bytes).ok());
        match request.filter(|_| now.request != was.request) {
            Some(request) => self.of_request(&request, was.edition, happened.side),
            None => Vec::new(),
        }
    }

    fn of_request(&mut self, sent: &Message, edition_before: Edition, side: Side) -> Vec<String> {
        let mut names = vec![request(side, sent.command, sent.edition)];
        let last = &mut self.0[side];
        if sent.command == IDENTITY {
            *last = LastIdentity {
                edition_before,
                in_vain: None,
            };
        }
        if sent.command == ENTER && sent.edition == OURS {
            let ends = last.in_vain.into_iter();
            names.extend(ends.map(|end| entered(side, end, last.edition_before)));
        }
        names
    }

    fn of_wait_ended(&mut self, end: &'static str, happened: &Happened) -> Vec<String> {
        let side = happened.side;
        if happened.before[side].awaits_identity() {
            self.0[side].in_vain = Some(end);
        }
        Vec::new()
    }

    fn of_taken(&mut self, taken: &Message, happened: &Happened) -> Vec<String> {
        let (side, edition) = (happened.side, taken.edition);
        let mut names = vec![answer(side, taken.kind, edition)];
        match (taken.command, taken.kind) {
            (IDENTITY, BUSY) => {
                self.0[side].in_vain = Some(IN_VAIN[0]);
                names.push(busy_to_identity(side, edition));
            }
            (IDENTITY, ACK) if happened.link().has_request() => {
                names.push(late_identity(side, edition));
            }
            (ENTER | EXIT, _) if edition < happened.before[side].edition => {
                names.push(older_answer(side, edition));
            }
            _ => {}
        }
        names
    }
}

/// What is refused 6 is late.
fn of_refused(answer: &Message, happened: &Happened) -> Vec<String> {
    let is_late = happened.outcome.refusal == Some(NOT_AWAITED);
    let name = is_late.then(|| late(happened.side, answer.edition));
    name.into_iter().collect()
}

/// Every name.
pub fn all() -> Vec<String> {
    let mut names = vec![COMPLETED_APART.to_string()];
    for partner in Edition::ALL {
        names.extend(Edition::ALL.map(|cable| docks(Sides { partner, cable })));
    }
    for side in Side::BOTH {
        names.push(request(side, IDENTITY, OURS));
        for edition in Edition::ALL {
            names.extend(of_dock(side, edition));
            names.extend([ACK, NAK, BUSY].map(|kind| answer(side, kind, edition)));
            names.extend((SVIDS..=EXIT).map(|command| request(side, command, edition)));
            names.push(busy_to_identity(side, edition));
        }
        for edition in OLDER {
            names.extend(IN_VAIN.map(|end| entered(side, end, edition)));
            names.push(older_answer(side, edition));
        }
    }
    names
}

/// What one long stream reaches.
pub fn of_one_stream(start: &Start) -> Vec<String> {
    let mut names = vec![docks(Sides::each(|side| start[side].highest))];
    for side in Side::BOTH {
        let highest = start[side].highest;
        names.extend(of_dock(side, highest));
        names.extend([
            request(side, IDENTITY, OURS),
            request(side, SVIDS, highest),
            answer(side, ACK, highest),
            busy_to_identity(side, highest),
        ]);
    }
    names
}

/// What each dock of that highest edition comes to.
fn of_dock(side: Side, highest: Edition) -> [String; 3] {
    [
        completed(side, highest),
        late(side, highest),
        late_identity(side, highest),
    ]
}

/// A stream, by the highest editions of its docks.
pub fn docks(highest: Sides<Edition>) -> String {
    let Sides { partner, cable } = highest;
    format!("streams with docks of {partner} at the partner and {cable} at the cable")
}

pub fn completed(side: Side, highest: Edition) -> String {
    let name = format!("gatherings of a dock of {highest} completed");
    of_side(side, &name)
}

fn request(side: Side, command: u8, edition: Edition) -> String {
    of_side(side, &format!("command {command} sent at {edition}"))
}

fn answer(side: Side, kind: u8, edition: Edition) -> String {
    let kind = match kind {
        ACK => "ACK",
        NAK => "NAK",
        _ => "BUSY",
    };
    of_side(side, &format!("{kind} taken at {edition}"))
}

fn busy_to_identity(side: Side, edition: Edition) -> String {
    of_side(side, &format!("BUSY to Identity taken at {edition}"))
}

fn late(side: Side, edition: Edition) -> String {
    of_side(side, &format!("late answer at {edition} refused 6"))
}

fn late_identity(side: Side, edition: Edition) -> String {
    let name = format!("late Identity ACK at {edition} taken for a newer Identity");
    of_side(side, &name)
}

fn older_answer(side: Side, edition: Edition) -> String {
    let name = format!("answer to enter or exit taken at {edition}, below the side's edition");
    of_side(side, &name)
}

fn entered(side: Side, end: &str, edition: Edition) -> String {
    let name = format!("enter sent at {OURS} after {edition}, Identity having ended by {end}");
    of_side(side, &name)
}
