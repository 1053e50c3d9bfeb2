//! Counts what streams of laptop events reach that their lines do not tell, by side: damaged messages,
//! messages with bit 5, late answers, repeats, pages after the two hundredth, what one side does
//! while the other waits or gathers, and editions.

mod editions;

use super::{Event, Outcome, Run};
use crate::call::Call;
use crate::counts::Counts;
use crate::laptop::{Awaited, Laptop, MOST_PAGES};
use crate::messages::{has_reserved, read, Message, ACK, ENTER, EXIT, IDENTITY, MODES, REQ, SVIDS};
use crate::pages::MOST_SVIDS;
use crate::refusals::{ACCEPTED, NOT_AWAITED, NOT_WHOLE_OBJECTS, WRONG_SHAPE};
use crate::side::Side;
use crate::side_editions::{self, SideEditions};
use crate::two_sides::{self, Step};

const STREAMS: &str = "streams";
const REPEAT: &str = "repeat of the last page taken";
const PAGE_201: &str = "page after the two hundredth";
const LATE_ALONE: &str = "late answer with nothing awaited";
const LATE_TAKEN: &str = "late answer taken for a newer request";
const DAMAGED: &str = "damaged message";
const RESERVED: &str = "message with bit 5 accepted";

#[derive(Default)]
pub struct Tally {
    run: Run,
    /// Each request whose wait a timer or a protocol error has ended, until an answer comes.
    unanswered: Vec<Awaited>,
    side_editions: SideEditions,
    counts: Counts,
}

impl Tally {
    /// Counts the events of a stream, which begins with a fresh laptop.
    pub fn count_stream(&mut self, events: &[Event]) {
        self.run = Run::default();
        self.unanswered.clear();
        self.side_editions = SideEditions::default();
        self.counts.add(STREAMS.to_string());
        for event in events {
            self.count(event);
        }
    }

    fn count(&mut self, event: &Event) {
        let before = self.run.laptop().clone();
        let outcome = self.run.take(event);
        let step = Step {
            before: &before,
            refusal: outcome.refusal,
            told: outcome.told,
            after: self.run.laptop(),
        };
        let mut names = editions::names_of(event, &before, &outcome, step.after);
        match event {
            Event::Message { side, bytes } => {
                names.extend(step.of_message(*side, bytes));
                names.extend(self.side_editions.of_message(&step, *side, bytes));
            }
            Event::Call(call) => {
                names.extend(step.of_call(*call));
                names.extend(self.side_editions.of_call(&step, *call, outcome.header()));
            }
            _ => {}
        }
        names.into_iter().for_each(|name| self.counts.add(name));
        match event {
            Event::Message { side, bytes } => self.count_message(*side, bytes, &before, &outcome),
            Event::Call(call) => self.end_wait(*call, &before, &outcome),
            _ => {}
        }
    }

    fn count_message(&mut self, side: Side, bytes: &[u8], before: &Laptop, outcome: &Outcome) {
        match read(bytes) {
            Ok(message) => {
                self.count_reserved(side, bytes, before, outcome);
                self.count_page(side, &message, before, outcome);
                self.count_late(side, &message, before, outcome);
            }
            Err(_) => self.count_damaged(side, before, outcome),
        }
        let held = self.run.laptop().held(side);
        if let Some(held) = held.filter(|_| held != before.held(side)) {
            self.counts.add(list(side, held.svids.len()));
        }
    }

    /// Short runs are refused before the message is read.
    fn count_damaged(&mut self, side: Side, before: &Laptop, outcome: &Outcome) {
        if (NOT_WHOLE_OBJECTS..=WRONG_SHAPE).contains(&outcome.refusal) {
            let command = command_awaited(before, side);
            self.counts.add(awaiting(DAMAGED, side, command));
        }
    }

    /// With nothing awaited from its side, Attention alone is accepted.
    fn count_reserved(&mut self, side: Side, bytes: &[u8], before: &Laptop, outcome: &Outcome) {
        if has_reserved(bytes) && outcome.refusal == ACCEPTED {
            let command = command_awaited(before, side);
            self.counts.add(awaiting(RESERVED, side, command));
        }
    }

    fn count_page(&mut self, side: Side, message: &Message, before: &Laptop, outcome: &Outcome) {
        let is_page = (message.command, message.kind) == (SVIDS, ACK);
        let is_last = before.page_count(side) == MOST_PAGES;
        if is_page && is_last && outcome.refusal == NOT_AWAITED {
            self.counts.add(of_side(PAGE_201, side));
        }
        let after = self.run.laptop();
        let has_new_page = after.page_count(side) > before.page_count(side);
        if has_new_page && after.candidate(side) == before.candidate(side) {
            self.counts.add(of_side(REPEAT, side));
        }
    }

    /// An answer that fits a request whose wait has ended.
    fn count_late(&mut self, side: Side, message: &Message, before: &Laptop, outcome: &Outcome) {
        let request = message.request();
        let fitting = Awaited { side, request };
        let place = self.unanswered.iter().position(|&late| late == fitting);
        let Some(place) = place.filter(|_| message.kind != REQ) else {
            return;
        };
        match (outcome.refusal, before.awaited_from(side)) {
            (NOT_AWAITED, None) => self.counts.add(of_side(LATE_ALONE, side)),
            (ACCEPTED, Some(_)) => self.counts.add(of_side(LATE_TAKEN, side)),
            _ => return,
        }
        self.unanswered.remove(place);
    }

    fn end_wait(&mut self, call: Call, before: &Laptop, outcome: &Outcome) {
        let ends_wait = !call.is_owners() && outcome.refusal == ACCEPTED;
        self.unanswered
            .extend(before.awaited().filter(|_| ends_wait));
    }

    /// What any long stream reaches, and these did not.
    pub fn missing(&self) -> Vec<String> {
        self.counts.missing(&names())
    }

    /// The lists of each side that were never published: all streams together publish each.
    pub fn missing_lists(&self) -> Vec<String> {
        self.counts.missing(&lists())
    }

    pub fn table(&self) -> String {
        let published = lists()
            .iter()
            .filter(|list| self.counts.of(list) > 0)
            .count();
        let names = self.counts.table(&names());
        format!("{names}\nlists published, by side and length: {published}")
    }
}

fn names() -> Vec<String> {
    let sorts = [REPEAT, PAGE_201, LATE_ALONE, LATE_TAKEN];
    let commands = [0, IDENTITY, SVIDS, MODES, ENTER, EXIT];
    let mut names = vec![STREAMS.to_string()];
    for side in Side::BOTH {
        names.extend(sorts.map(|sort| of_side(sort, side)));
        names.extend(commands.map(|command| awaiting(DAMAGED, side, command)));
        names.extend(commands.map(|command| awaiting(RESERVED, side, command)));
    }
    let of_sides = [two_sides::names(), two_sides::short_run_names()].concat();
    [names, of_sides, side_editions::names(), editions::names()].concat()
}

fn lists() -> Vec<String> {
    let lengths = 0..=MOST_SVIDS;
    let of_sides = lengths.flat_map(|length| Side::BOTH.map(|side| list(side, length)));
    of_sides.collect()
}

/// The command that is awaited from the side; 0 is nothing.
fn command_awaited(laptop: &Laptop, side: Side) -> u8 {
    let awaited = laptop.awaited_from(side);
    awaited.map_or(0, |request| request.command)
}

fn of_side(sort: &str, side: Side) -> String {
    format!("{sort}, {side}")
}

fn list(side: Side, length: usize) -> String {
    format!("list of {length} of the {side} published")
}

fn awaiting(sort: &str, side: Side, command: u8) -> String {
    match command {
        0 => format!("{sort} from the {side} awaiting nothing"),
        _ => format!("{sort} from the {side} awaiting command {command}"),
    }
}
