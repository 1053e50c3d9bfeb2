//! Prints streams of laptop events, the same each time, and counts on standard error what they
//! reach: all that are stored; with `--stream` and a number, that one alone; with a seed, in
//! decimal, a long one.

use second::generating::{asked, print, Asked};
use second::laptop_events::answers::print_answers;
use second::laptop_events::generator::{expected, generate, stored_stream, STREAMS};
use second::laptop_events::put_streams;
use second::laptop_events::tally::Tally;
use second::reached::Reached;
use std::error::Error;
use std::process::ExitCode;

fn main() -> Result<ExitCode, Box<dyn Error>> {
    let asked = asked()?;
    let streams = match asked {
        Asked::Stored => (1..=STREAMS).map(stored_stream).collect(),
        Asked::Stream(number) => vec![stored_stream(number)],
        Asked::Seed(seed) => vec![generate(seed)],
    };
    let mut bytes = Vec::new();
    put_streams(&streams, &mut bytes)?;
    let mut tally = Tally::default();
    streams.iter().for_each(|events| tally.count_stream(events));
    let mut lines = Vec::new();
    print_answers(&mut &bytes[..], &mut lines)?;
    let mut reached = Reached::default();
    let events = reached.count_lines(&String::from_utf8(lines)?);
    let counts = format!(
        "{}\nevents: {events}, bytes: {}",
        tally.table(),
        bytes.len()
    );
    let missing = match asked {
        Asked::Stream(_) => Vec::new(),
        Asked::Seed(_) => [reached.missing(&expected()), tally.missing()].concat(),
        Asked::Stored => [
            reached.missing(&expected()),
            tally.missing(),
            tally.missing_lists(),
        ]
        .concat(),
    };
    Ok(print(&bytes, counts, &missing)?)
}
