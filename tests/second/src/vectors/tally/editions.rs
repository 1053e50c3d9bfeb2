//! Counts the versions that are read, and the editions at which messages are read and written.

use super::taken;
use crate::counts::Counts;
use crate::edition::Edition;
use crate::messages::{version_of, Message, LAST_MAJOR, LAST_MINOR};
use crate::refusals::{ACCEPTED, UNREAD_MAJOR, WRONG_SHAPE};
use crate::vectors::generator::NO_EDITIONS;
use std::fmt;

const READ: &str = "read";
const WRITTEN: &str = "written";
const LAST_READ_MAJOR: u8 = 1;

#[derive(Default)]
pub struct Editions {
    counts: Counts,
}

impl Editions {
    pub fn count_read(&mut self, bytes: &[u8], reading: Result<Message, u8>) {
        if let Some(of_header) = version_of(bytes) {
            let answer = reading.err().unwrap_or(ACCEPTED);
            self.counts.add(version(of_header, answer));
        }
        if let Ok(message) = reading {
            let pair = (message.command, message.kind);
            self.count(READ, pair, message.edition);
        }
    }

    pub fn count_write(&mut self, command: u8, kind: u8, number: u8, answer: u8) {
        match (Edition::of_number(number), answer) {
            (Some(edition), ACCEPTED) => self.count(WRITTEN, (command, kind), edition),
            (None, WRONG_SHAPE) => self.counts.add(no_edition(number)),
            _ => {}
        }
    }

    fn count(&mut self, call: &str, pair: (u8, u8), edition: Edition) {
        self.counts.add(at(call, edition));
        self.counts.add(pair_at(call, pair, edition));
    }

    /// A line for each version, edition, pair of command and type at an edition, and number that is
    /// no edition, that never occurred.
    pub fn missing(&self) -> Vec<String> {
        let names = [shown(), pairs()].concat();
        self.counts.missing(&names)
    }
}

impl fmt::Display for Editions {
    fn fmt(&self, formatter: &mut fmt::Formatter) -> fmt::Result {
        write!(formatter, "{}", self.counts.table(&shown()))
    }
}

/// The names that are few.
fn shown() -> Vec<String> {
    let versions =
        (0..=LAST_MAJOR).flat_map(|major| (0..=LAST_MINOR).map(move |minor| (major, minor)));
    let versions = versions.map(|(major, minor)| match major {
        0..=LAST_READ_MAJOR => version((major, minor), ACCEPTED),
        _ => version((major, minor), UNREAD_MAJOR),
    });
    let calls = [READ, WRITTEN].into_iter();
    let editions = calls.flat_map(|call| Edition::ALL.map(|edition| at(call, edition)));
    let no_editions = NO_EDITIONS.map(no_edition);
    versions.chain(editions).chain(no_editions).collect()
}

/// Every command and type that the table takes, read and written at each edition.
fn pairs() -> Vec<String> {
    let calls = [READ, WRITTEN].into_iter();
    let at_editions = calls.flat_map(|call| Edition::ALL.map(|edition| (call, edition)));
    let pairs = at_editions
        .flat_map(|(call, edition)| taken().map(move |pair| pair_at(call, pair, edition)));
    pairs.collect()
}

fn version((major, minor): (u8, u8), answer: u8) -> String {
    format!("read {answer} of major {major} minor {minor}")
}

fn at(call: &str, edition: Edition) -> String {
    format!("{call} at {edition}")
}

fn pair_at(call: &str, (command, kind): (u8, u8), edition: Edition) -> String {
    format!("command {command} type {kind} {call} at {edition}")
}

fn no_edition(number: u8) -> String {
    format!("edition {number} refused {WRONG_SHAPE}")
}
