//! Counts how often each answer occurs in a stream of vectors, and tells what never occurs.

mod editions;

use super::Vector;
use crate::messages::{
    self, has_reserved, ATTENTION, EXIT, IDENTITY, KIND_BIT, LAST_COMMAND, LAST_KIND, NAK, REQ,
};
use crate::refusals::{
    ACCEPTED, NOT_STRUCTURED, NOT_WHOLE_OBJECTS, SHORT_BUFFER, UNREAD_MAJOR, WRONG_SHAPE,
};
use editions::Editions;
use std::collections::{BTreeMap, BTreeSet};
use std::fmt;

const READ: &str = "read";
const WRITE: &str = "write";
const REQUIRED: [(&str, u8); 8] = [
    (READ, ACCEPTED),
    (READ, NOT_WHOLE_OBJECTS),
    (READ, NOT_STRUCTURED),
    (READ, UNREAD_MAJOR),
    (READ, WRONG_SHAPE),
    (WRITE, ACCEPTED),
    (WRITE, WRONG_SHAPE),
    (WRITE, SHORT_BUFFER),
];

#[derive(Default)]
pub struct Tally {
    answers: BTreeMap<(&'static str, u8), usize>,
    /// The command and type of each message read whose header is sound but for its shape.
    pairs: BTreeSet<(u8, u8)>,
    /// By command and type, the messages with bit 5 that were accepted.
    reserved: BTreeMap<(u8, u8), usize>,
    editions: Editions,
}

impl Tally {
    pub fn count(&mut self, vector: &Vector) {
        let answer = match vector {
            Vector::Read { bytes } => (READ, self.count_read(bytes)),
            Vector::Write {
                svid,
                command,
                kind,
                position,
                edition,
                room,
                objects,
            } => {
                let mut buffer = vec![0; usize::from(*room)];
                let answer = messages::write(
                    *svid,
                    *command,
                    *kind,
                    *position,
                    *edition,
                    objects,
                    &mut buffer,
                );
                self.editions.count_write(*command, *kind, *edition, answer);
                (WRITE, answer)
            }
        };
        *self.answers.entry(answer).or_default() += 1;
    }

    fn count_read(&mut self, bytes: &[u8]) -> u8 {
        let reading = messages::read(bytes);
        self.editions.count_read(bytes, reading);
        let answer = reading.err().unwrap_or(ACCEPTED);
        if matches!(answer, ACCEPTED | WRONG_SHAPE) {
            let pair = (bytes[0] & LAST_COMMAND, bytes[0] >> KIND_BIT);
            self.pairs.insert(pair);
            if answer == ACCEPTED && has_reserved(bytes) {
                *self.reserved.entry(pair).or_default() += 1;
            }
        }
        answer
    }

    /// A line for each required answer, and for each command and type, that never occurred, and for
    /// each that the table takes and that was never accepted with bit 5; and all that is missing of
    /// editions.
    pub fn missing(&self) -> Vec<String> {
        let answers = REQUIRED
            .iter()
            .filter(|answer| !self.answers.contains_key(answer))
            .map(|(call, answer)| format!("{call} {answer} never occurred"));
        let pairs = (0..=LAST_COMMAND)
            .flat_map(|command| (0..=LAST_KIND).map(move |kind| (command, kind)))
            .filter(|pair| !self.pairs.contains(pair))
            .map(|(command, kind)| format!("command {command} type {kind} never occurred"));
        let reserved = taken()
            .filter(|pair| !self.reserved.contains_key(pair))
            .map(|(command, kind)| {
                format!("command {command} type {kind} with bit 5 was never accepted")
            });
        let first = answers.chain(pairs).chain(reserved);
        first.chain(self.editions.missing()).collect()
    }
}

impl fmt::Display for Tally {
    fn fmt(&self, formatter: &mut fmt::Formatter) -> fmt::Result {
        for ((call, answer), count) in &self.answers {
            writeln!(formatter, "{call} {answer}: {count}")?;
        }
        let reserved: usize = self.reserved.values().sum();
        let pairs = self.reserved.len();
        writeln!(
            formatter,
            "messages with bit 5 accepted: {reserved}, of {pairs} pairs of command and type"
        )?;
        writeln!(formatter, "pairs of command and type: {}", self.pairs.len())?;
        write!(formatter, "{}", self.editions)
    }
}

/// Every command and type that the table takes.
fn taken() -> impl Iterator<Item = (u8, u8)> {
    let pairs =
        (0..=LAST_COMMAND).flat_map(|command| (0..=LAST_KIND).map(move |kind| (command, kind)));
    pairs.filter(|&(command, kind)| match command {
        IDENTITY..=EXIT => true,
        ATTENTION => kind == REQ,
        _ => kind == REQ || kind == NAK,
    })
}
