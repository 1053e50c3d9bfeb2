//! Answers a stream of laptop events, a line each.

use super::{Event, Item, Outcome, Run};
use crate::digest;
use crate::fields::{self, or_nothing};
use crate::laptop::Laptop;
use crate::side::Side;
use crate::stream::{print_hex, print_lines, Place, Stop};
use std::io::{self, BufRead, Write};

const HEADING: &str = "stream event side refusal sent output told awaited candidate pages held \
    edition candidate_run held_run catalogue report other_candidate other_pages other_held \
    other_edition";

pub fn print_answers(input: &mut impl BufRead, output: &mut impl Write) -> io::Result<()> {
    writeln!(output, "{HEADING}")?;
    let mut run = Run::default();
    let mut place = Place::FIRST;
    print_lines("events", input, output, |_, input, output| {
        let event = take_event(input, &mut run, &mut place)?;
        let side = side_of(&event, run.laptop());
        let outcome = run.take(&event);
        write!(output, "{place} {side} ")?;
        print_outcome(&outcome, output)?;
        print_laptop(&run, side, output)?;
        print_readings(&outcome, output)?;
        Ok(print_other(run.laptop(), side.other(), output)?)
    })
}

/// The side that the event says; of a timer or a protocol error the one that waits, the partner if
/// none does.
fn side_of(event: &Event, laptop: &Laptop) -> Side {
    let waiting = laptop.awaited().map(|awaited| awaited.side);
    event.side().or(waiting).unwrap_or(Side::Partner)
}

/// The next event, which may be that of a new stream: then the laptop is fresh.
fn take_event(input: &mut impl BufRead, run: &mut Run, place: &mut Place) -> Result<Event, Stop> {
    loop {
        match Item::take(input)? {
            Item::NewStream => {
                *place = place.next_stream()?;
                *run = Run::default();
            }
            Item::Event(event) => {
                *place = place.next_event();
                return Ok(event);
            }
        }
    }
}

/// What the call itself led to.
fn print_outcome(outcome: &Outcome, output: &mut impl Write) -> io::Result<()> {
    write!(output, "{} ", outcome.refusal)?;
    match &outcome.sent[..] {
        [] => write!(output, "{}", fields::NOTHING)?,
        sent => print_hex(sent, output)?,
    }
    let buffer = or_nothing(outcome.output.as_deref().map(fields::digest_of));
    let told = or_nothing(outcome.told.map(fields::told));
    write!(output, " {buffer} {told}")
}

/// What the laptop awaits, and what it and the runs of the side have come to.
fn print_laptop(run: &Run, side: Side, output: &mut impl Write) -> io::Result<()> {
    let laptop = run.laptop();
    let awaited = laptop.awaited();
    let awaited = awaited.map(|awaited| {
        let request = fields::request(awaited.request);
        format!("{}:{request}", awaited.side)
    });
    let candidate_run = digest::of_words(&run.runs(side).candidate);
    let held_run = digest::of_words(&run.runs(side).held);
    let (awaited, of_side) = (or_nothing(awaited), state_of(laptop, side));
    write!(output, " {awaited} {of_side}")?;
    write!(output, " {candidate_run:08X} {held_run:08X}")
}

/// What a call that only reads has read.
fn print_readings(outcome: &Outcome, output: &mut impl Write) -> io::Result<()> {
    let catalogue = outcome.catalogue.as_deref();
    let catalogue = catalogue.map(|bytes| format!("{}:{}", bytes.len(), fields::digest_of(bytes)));
    let report = outcome.report.map(|count| count.to_string());
    write!(output, " {} {}", or_nothing(catalogue), or_nothing(report))
}

/// What the laptop has of the other side.
fn print_other(laptop: &Laptop, other: Side, output: &mut impl Write) -> io::Result<()> {
    writeln!(output, " {}", state_of(laptop, other))
}

/// The candidate, the page count, the number of held SVIDs and the edition.
fn state_of(laptop: &Laptop, side: Side) -> String {
    let candidate = fields::candidate(laptop.candidate(side));
    let pages = laptop.page_count(side);
    let held = fields::held_count(laptop, side);
    let edition = laptop.edition(side);
    format!("{candidate} {pages} {held} {edition}")
}
