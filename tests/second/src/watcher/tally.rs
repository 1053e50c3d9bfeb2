//! Counts what a stream of laptop events reaches, and tells what it never reaches.

use super::event::kinds;
use super::{Event, Outcome, Run};
use crate::counts::Counts;
use crate::edition::Edition;
use crate::laptop::{Awaited, Candidate, Laptop};
use crate::messages::{
    bytes_of, has_reserved, read, version_of, ACK, ATTENTION, BUSY, ENTER, EXIT, IDENTITY,
    LAST_MAJOR, LAST_MINOR, LAST_MODE_POSITION, LAST_POSITION, MODES, NAK, REQ, SVIDS,
};
use crate::pages::MOST_SVIDS;
use crate::refusals::{
    ACCEPTED, AWAITING, BLOCKED, NOT_AWAITED, NOT_HELD, NOT_STRUCTURED, NOT_TAKEN_NOW, NO_END,
    UNREAD_MAJOR, VOIDED, WRONG_SHAPE,
};
use crate::side::Side;
use crate::side_editions::{self, SideEditions};
use crate::two_sides::{self, Step};
use std::fmt;

/// Every refusal of the laptop but 1 and 11, which the stream cannot bring about.
const REFUSALS: [u8; 11] = [
    ACCEPTED,
    NOT_STRUCTURED,
    UNREAD_MAJOR,
    WRONG_SHAPE,
    NOT_AWAITED,
    AWAITING,
    VOIDED,
    NOT_TAKEN_NOW,
    NOT_HELD,
    BLOCKED,
    NO_END,
];
const COMMANDS: [u8; 5] = [IDENTITY, SVIDS, MODES, ENTER, EXIT];
const RESERVED: &str = "message with bit 5 accepted";
const NO_CANDIDATE: &str = "no candidate";
const LIST_OPEN: &str = "list open";
const LIST_DONE: &str = "list done";
/// Every candidate and the commands awaited from its side with it.
const STATES: [(&str, &[u8]); 3] = [
    (NO_CANDIDATE, &[IDENTITY, ENTER, EXIT]),
    (LIST_OPEN, &[SVIDS]),
    (LIST_DONE, &[MODES]),
];

#[derive(Default)]
pub struct Tally {
    run: Run,
    editions: SideEditions,
    counts: Counts,
}

impl Tally {
    pub fn count(&mut self, event: &Event) {
        let before = self.run.laptop().clone();
        let outcome = self.run.take(event);
        self.count_before(event, &before, outcome.refusal);
        let step = Step {
            before: &before,
            refusal: outcome.refusal,
            told: outcome.told,
            after: self.run.laptop(),
        };
        let editions = &mut self.editions;
        let (of_sides, of_editions) = match event {
            Event::Message { side, objects } => {
                let bytes = bytes_of(objects);
                let of_editions = editions.of_message(&step, *side, &bytes);
                (step.of_message(*side, &bytes), of_editions)
            }
            Event::Call(call) => {
                let of_editions = editions.of_call(&step, *call, outcome.sent);
                (step.of_call(*call), of_editions)
            }
        };
        let names = of_sides.into_iter().chain(of_editions);
        names.for_each(|name| self.counts.add(name));
        self.count_after(event, &before, &outcome);
    }

    /// By the wait before the event, and by the candidates of both sides with it.
    fn count_before(&mut self, event: &Event, before: &Laptop, refusal: u8) {
        let awaited = wait(before.awaited());
        self.counts.add(format!("refusal {refusal}"));
        self.counts.add(pair(event.kind(), &awaited));
        for side in Side::BOTH {
            let candidate = match before.candidate(side) {
                Candidate::None => NO_CANDIDATE,
                Candidate::ListOpen(_) => LIST_OPEN,
                Candidate::ListDone(_) => LIST_DONE,
            };
            self.counts.add(state(side, candidate, &awaited));
        }
    }

    /// What was sent, published, accepted with bit 5, or refused for its major.
    fn count_after(&mut self, event: &Event, before: &Laptop, outcome: &Outcome) {
        let laptop = self.run.laptop();
        if let (Some(_), Some(Awaited { side, request })) = (outcome.sent, laptop.awaited()) {
            self.counts
                .add(sent(side, request.command, request.position));
        }
        let Event::Message { side, objects } = event else {
            return;
        };
        let held = self.run.laptop().held(*side);
        if let Some(held) = held.filter(|_| held != before.held(*side)) {
            self.counts.add(list(held.svids.len()));
            self.counts.add(lists(*side));
        }
        let bytes = bytes_of(objects);
        if outcome.refusal == UNREAD_MAJOR {
            let of_header = version_of(&bytes);
            self.counts
                .add(unread(*side, of_header.expect("it has a header")));
        }
        let message = read(&bytes).ok().filter(|_| has_reserved(&bytes));
        if let Some(message) = message.filter(|_| outcome.refusal == ACCEPTED) {
            self.counts.add(RESERVED.to_string());
            self.counts
                .add(reserved(*side, message.command, message.kind));
        }
    }

    /// A line for each of the names that never occurred.
    pub fn missing(&self) -> Vec<String> {
        self.counts.missing(&names())
    }
}

impl fmt::Display for Tally {
    fn fmt(&self, formatter: &mut fmt::Formatter) -> fmt::Result {
        write!(formatter, "{}", self.counts.table(&names()))
    }
}

fn names() -> Vec<String> {
    let mut names: Vec<String> = REFUSALS.map(|number| format!("refusal {number}")).to_vec();
    for awaited in waits() {
        names.extend(
            kinds()
                .into_iter()
                .map(|kind| pair(kind, &wait_of(awaited))),
        );
    }
    for side in Side::BOTH {
        names.extend(states(side));
        names.extend(requests().map(|(command, position)| sent(side, command, position)));
        names.extend(taken().map(|(command, kind)| reserved(side, command, kind)));
        names.push(lists(side));
        names.extend(unread_versions().map(|version| unread(side, version)));
    }
    names.extend((0..=MOST_SVIDS).map(list));
    names.push(RESERVED.to_string());
    names.extend(two_sides::names());
    names.extend(side_editions::names());
    names
}

/// Nothing awaited, and each command from each side.
fn waits() -> impl Iterator<Item = Option<(Side, u8)>> {
    let of_sides = Side::BOTH.map(|side| COMMANDS.map(|command| Some((side, command))));
    [None].into_iter().chain(of_sides.into_iter().flatten())
}

/// Each candidate of the side with nothing awaited, each with what is awaited from that side, and
/// each with any command awaited from the other.
fn states(side: Side) -> Vec<String> {
    let with_waits = STATES.iter().flat_map(|&(candidate, commands)| {
        let own = commands.iter().map(|&command| Some((side, command)));
        let others = COMMANDS.map(|command| Some((side.other(), command)));
        let waits = [None].into_iter().chain(own).chain(others);
        waits.map(move |awaited| state(side, candidate, &wait_of(awaited)))
    });
    with_waits.collect()
}

/// The command and position of every request that a laptop can send.
fn requests() -> impl Iterator<Item = (u8, u8)> {
    let asking = [(IDENTITY, 0), (SVIDS, 0), (MODES, 0)].into_iter();
    let enters = (1..=LAST_MODE_POSITION).map(|position| (ENTER, position));
    let exits = (1..=LAST_POSITION).map(|position| (EXIT, position));
    asking.chain(enters).chain(exits)
}

/// The command and type of every message that a laptop can accept; a NAK to Modes it refuses.
fn taken() -> impl Iterator<Item = (u8, u8)> {
    let answers = COMMANDS
        .into_iter()
        .flat_map(|command| [ACK, NAK, BUSY].map(|kind| (command, kind)));
    let answers = answers.filter(|&pair| pair != (MODES, NAK));
    answers.chain([(ATTENTION, REQ)])
}

/// The majors and minors that are not read.
fn unread_versions() -> impl Iterator<Item = (u8, u8)> {
    let majors = (0..=LAST_MAJOR).filter(|&major| Edition::of_version(major, 0).is_none());
    majors.flat_map(|major| (0..=LAST_MINOR).map(move |minor| (major, minor)))
}

fn wait(awaited: Option<Awaited>) -> String {
    wait_of(awaited.map(|awaited| (awaited.side, awaited.request.command)))
}

fn wait_of(awaited: Option<(Side, u8)>) -> String {
    match awaited {
        Some((side, command)) => format!("awaiting command {command} from the {side}"),
        None => "awaiting nothing".to_string(),
    }
}

fn pair(kind: u8, wait: &str) -> String {
    format!("kind {kind:02X} {wait}")
}

fn state(side: Side, candidate: &str, wait: &str) -> String {
    format!("{candidate} of the {side} {wait}")
}

fn sent(side: Side, command: u8, position: u8) -> String {
    format!("request {command} at {position} to the {side}")
}

fn list(length: usize) -> String {
    format!("list of {length} published")
}

fn lists(side: Side) -> String {
    format!("lists of the {side} published")
}

fn unread(side: Side, (major, minor): (u8, u8)) -> String {
    format!("major {major} minor {minor} refused {UNREAD_MAJOR} from the {side}")
}

fn reserved(side: Side, command: u8, kind: u8) -> String {
    format!("bit 5 accepted in command {command} type {kind} from the {side}")
}
