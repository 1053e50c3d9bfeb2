//! Prints streams of link events, the same each time, and counts on standard error what they reach:
//! all that are stored; with `--stream` and a number, that one alone; with a seed, in decimal, a
//! long one.

use second::generating::{asked, print, Asked};
use second::link_events::generator::{generate, stored_stream, STREAMS};
use second::link_events::put_streams;
use second::link_events::tally::{all, of_one_stream, Tally};
use std::error::Error;
use std::process::ExitCode;

fn main() -> Result<ExitCode, Box<dyn Error>> {
    let asked = asked()?;
    let streams = match asked {
        Asked::Stored => (1..=STREAMS).map(stored_stream).collect(),
        Asked::Stream(number) => vec![stored_stream(number)],
        Asked::Seed(seed) => vec![generate(seed)],
    };
    let mut bytes = Vec::new();
    put_streams(&streams, &mut bytes)?;
    let mut tally = Tally::default();
    for (start, events) in &streams {
        tally.count_stream(start, events)?;
    }
    let events: usize = streams.iter().map(|(_, events)| events.len()).sum();
    let counts = format!(
        "{}\nevents: {events}, bytes: {}",
        tally.table(),
        bytes.len()
    );
    let expected = match asked {
        Asked::Stored => all(),
        Asked::Stream(_) => Vec::new(),
        Asked::Seed(_) => of_one_stream(&streams[0].0),
    };
    Ok(print(&bytes, counts, &tally.missing(&expected))?)
}
