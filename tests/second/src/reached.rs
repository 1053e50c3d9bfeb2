//! Counts what the lines of the programs reach: refusals, states, lists, pages and positions.

use crate::counts::Counts;
use crate::fields::{LIST_DONE, LIST_OPEN, NOTHING, NO_CANDIDATE};
use crate::laptop::MOST_PAGES;
use crate::messages::{ENTER, EXIT, IDENTITY, LAST_MODE_POSITION, LAST_POSITION, MODES, SVIDS};
use crate::pages::MOST_SVIDS;
use crate::refusals::{NOT_WHOLE_OBJECTS, NO_END, WITHDRAWN};
use crate::side::Side;
use std::fmt;

/// Every candidate and the commands that are awaited from its side with it.
const STATES: [(&str, &[u8]); 3] = [
    (NO_CANDIDATE, &[IDENTITY, ENTER, EXIT]),
    (LIST_OPEN, &[SVIDS]),
    (LIST_DONE, &[MODES]),
];
/// How a heading can begin.
const HEADINGS: [&[u8]; 2] = [b"event ", b"stream event "];

#[derive(Default)]
pub struct Reached {
    counts: Counts,
}

/// What a line's side awaits.
#[derive(Clone, Copy)]
enum Wait {
    Nothing,
    Command(u8),
    OfOtherSide,
}

/// The fields of a line, by the columns of its heading.
struct Line<'text> {
    columns: &'text [&'text str],
    fields: Vec<&'text str>,
}

impl Line<'_> {
    fn field(&self, name: &str) -> Option<&str> {
        let place = self.columns.iter().position(|&column| column == name)?;
        self.fields.get(place).copied()
    }

    fn number(&self, name: &str) -> Option<usize> {
        self.field(name)?.parse().ok()
    }
}

impl Reached {
    /// Counts each event's line below the heading, and gives how many there were. Such a line begins
    /// with a number, and the last line does not.
    pub fn count_lines(&mut self, text: &str) -> usize {
        let mut lines = text.lines();
        let heading = lines.next().unwrap_or_default();
        let columns: Vec<&str> = heading.split(' ').collect();
        let lines = lines.map(|line| Line {
            columns: &columns,
            fields: line.split(' ').collect(),
        });
        let events = lines.filter(|line| line.number(columns[0]).is_some());
        events.map(|line| self.count_line(&line)).count()
    }

    fn count_line(&mut self, line: &Line) {
        let names = [
            line.number("refusal").map(refusal),
            state_of(line),
            line.number("held").map(list),
            line.number("pages").map(pages),
            mode_of(line),
        ];
        for name in names.into_iter().flatten() {
            self.counts.add(name);
        }
    }

    pub fn count_of(&self, name: &str) -> usize {
        self.counts.of(name)
    }

    /// A line for each of the names that never occurred.
    pub fn missing(&self, names: &[String]) -> Vec<String> {
        self.counts.missing(names)
    }

    /// A line if a number occurred that is withdrawn.
    pub fn withdrawn(&self) -> Option<String> {
        let name = refusal(usize::from(WITHDRAWN));
        (self.counts.of(&name) > 0).then(|| format!("{name} occurred, and it is withdrawn"))
    }
}

/// The table: every name that is looked for, with its count.
impl fmt::Display for Reached {
    fn fmt(&self, formatter: &mut fmt::Formatter) -> fmt::Result {
        let names = [refusals(), beside_refusals()].concat();
        write!(formatter, "{}", self.counts.table(&names))
    }
}

/// Whether these bytes are lines below a heading, and not a stream.
pub fn are_lines(bytes: &[u8]) -> bool {
    HEADINGS.iter().any(|heading| bytes.starts_with(heading))
}

/// The names of all refusals that are given.
pub fn refusals() -> Vec<String> {
    let numbers = (NOT_WHOLE_OBJECTS..=NO_END).filter(|&number| number != WITHDRAWN);
    numbers.map(|number| refusal(usize::from(number))).collect()
}

/// The names of all states, lists, page counts and positions.
pub fn beside_refusals() -> Vec<String> {
    let states = Side::BOTH.into_iter().flat_map(states);
    let lists = (0..=MOST_SVIDS).map(list);
    let counts = [MOST_PAGES - 1, MOST_PAGES].map(pages);
    let modes = Side::BOTH.into_iter().flat_map(|side| {
        let enters = (1..=LAST_MODE_POSITION).map(move |position| mode(side, ENTER, position));
        let exits = (1..=LAST_POSITION).map(move |position| mode(side, EXIT, position));
        enters.chain(exits)
    });
    states.chain(lists).chain(counts).chain(modes).collect()
}

fn states(side: Side) -> impl Iterator<Item = String> {
    STATES.iter().flat_map(move |&(candidate, commands)| {
        let commands = commands.iter().map(|&command| Wait::Command(command));
        let waits = [Wait::Nothing, Wait::OfOtherSide].into_iter();
        waits
            .chain(commands)
            .map(move |wait| state(side, candidate, wait))
    })
}

fn refusal(number: usize) -> String {
    format!("refusal {number}")
}

fn state(side: impl fmt::Display, candidate: &str, wait: Wait) -> String {
    let wait = match wait {
        Wait::Nothing => "awaiting nothing".to_string(),
        Wait::Command(command) => format!("awaiting command {command}"),
        Wait::OfOtherSide => "while the other side waits".to_string(),
    };
    format!("candidate {candidate} of the {side} {wait}")
}

fn list(length: usize) -> String {
    format!("held list of {length}")
}

fn pages(count: usize) -> String {
    format!("page count {count}")
}

fn mode(side: impl fmt::Display, command: u8, position: u8) -> String {
    match command {
        ENTER => format!("enter sent to the {side} at position {position}"),
        _ => format!("exit sent to the {side} at position {position}"),
    }
}

fn state_of(line: &Line) -> Option<String> {
    let side = line.field("side")?;
    let candidate = line.field("candidate")?.split(':').next()?;
    let awaited = line.field("awaited")?;
    let mut parts = awaited.split(':');
    let wait = match parts.next()? {
        NOTHING => Wait::Nothing,
        waiting if waiting == side => Wait::Command(parts.nth(1)?.parse().ok()?),
        _ => Wait::OfOtherSide,
    };
    Some(state(side, candidate, wait))
}

/// The side and position of an enter or exit that was sent.
fn mode_of(line: &Line) -> Option<String> {
    if line.field("sent")? == NOTHING {
        return None;
    }
    let mut numbers = line.field("awaited")?.split(':').skip(2);
    let command = numbers.next()?.parse().ok()?;
    let position = numbers.next()?.parse().ok()?;
    let side = line.field("side")?;
    [ENTER, EXIT]
        .contains(&command)
        .then(|| mode(side, command, position))
}
