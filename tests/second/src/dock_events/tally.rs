//! Counts what a stream of dock events reaches, and tells what it never reaches.

mod editions;

use super::event::KINDS;
use super::run::{ASKING, READY, SENDING};
use super::{Event, Outcome, Run};
use crate::dock::MOST_SVIDS;
use crate::messages::{has_reserved, read, ATTENTION, LAST_COMMAND};
use crate::refusals::{
    ACCEPTED, BROKEN_LIMITS, NOT_AWAITED, NOT_STRUCTURED, NOT_TAKEN_NOW, NOT_WHOLE_OBJECTS,
    SHORT_BUFFER, UNREAD_MAJOR, WRONG_SHAPE,
};
use editions::{Editions, Step};
use std::collections::BTreeMap;
use std::fmt;

const REFUSALS: [u8; 9] = [
    ACCEPTED,
    NOT_WHOLE_OBJECTS,
    NOT_STRUCTURED,
    UNREAD_MAJOR,
    WRONG_SHAPE,
    NOT_AWAITED,
    NOT_TAKEN_NOW,
    BROKEN_LIMITS,
    SHORT_BUFFER,
];
const STANDINGS: [&str; 3] = [READY, ASKING, SENDING];

#[derive(Default)]
pub struct Tally {
    run: Run,
    refusals: BTreeMap<u8, usize>,
    /// By the event's kind and the standing before it.
    pairs: BTreeMap<(u8, &'static str), usize>,
    /// By the length of a list that was loaded.
    lists: BTreeMap<usize, usize>,
    /// By the command of a request with bit 5 that was accepted.
    reserved: BTreeMap<u8, usize>,
    editions: Editions,
}

impl Tally {
    pub fn count(&mut self, event: &Event) {
        let pair = (event.kind(), self.run.standing());
        *self.pairs.entry(pair).or_default() += 1;
        let refusal = self.take(event).refusal;
        *self.refusals.entry(refusal).or_default() += 1;
        if matches!(event, Event::Load { .. }) && refusal == ACCEPTED {
            let length = self.run.dock().svid_count();
            *self.lists.entry(length).or_default() += 1;
        }
        let message = event.message().filter(|bytes| has_reserved(bytes));
        if let Some(Ok(request)) = message.map(|bytes| read(&bytes)) {
            if refusal == ACCEPTED {
                *self.reserved.entry(request.command).or_default() += 1;
            }
        }
    }

    /// What the event leads to, counted by editions.
    fn take(&mut self, event: &Event) -> Outcome {
        let (before, standing) = (self.run.dock().clone(), self.run.standing());
        let outcome = self.run.take(event);
        let step = Step {
            before: &before,
            standing,
            outcome,
            sent: &self.run.buffer()[..outcome.length],
            after: self.run.dock(),
        };
        self.editions.count(event, &step);
        outcome
    }

    /// A line for each refusal, pair and length of a list that never occurred, for each command
    /// whose request was never accepted with bit 5, and for all that is missing of editions.
    pub fn missing(&self) -> Vec<String> {
        let refusals = REFUSALS
            .iter()
            .filter(|refusal| !self.refusals.contains_key(refusal))
            .map(|refusal| format!("refusal {refusal} never occurred"));
        let pairs = KINDS
            .iter()
            .flat_map(|&kind| STANDINGS.map(|standing| (kind, standing)))
            .filter(|pair| !self.pairs.contains_key(pair))
            .map(|(kind, standing)| format!("kind {kind:02X} while {standing} never occurred"));
        let lists = (0..=MOST_SVIDS)
            .filter(|length| !self.lists.contains_key(length))
            .map(|length| format!("a list of {length} never occurred"));
        let reserved = (0..=LAST_COMMAND)
            .filter(|&command| command != ATTENTION && !self.reserved.contains_key(&command))
            .map(|command| format!("command {command} with bit 5 was never accepted"));
        let first = refusals.chain(pairs).chain(lists);
        let of_editions = self.editions.missing();
        first.chain(reserved).chain(of_editions).collect()
    }
}

impl fmt::Display for Tally {
    fn fmt(&self, formatter: &mut fmt::Formatter) -> fmt::Result {
        for (refusal, count) in &self.refusals {
            writeln!(formatter, "refusal {refusal}: {count}")?;
        }
        for ((kind, standing), count) in &self.pairs {
            writeln!(formatter, "kind {kind:02X} while {standing}: {count}")?;
        }
        let reserved: usize = self.reserved.values().sum();
        let commands = self.reserved.len();
        writeln!(
            formatter,
            "requests with bit 5 accepted: {reserved}, of {commands} commands"
        )?;
        let loads: usize = self.lists.values().sum();
        let lengths = self.lists.len();
        writeln!(formatter, "lists loaded: {loads}, of {lengths} lengths")?;
        write!(formatter, "{}", self.editions)
    }
}
