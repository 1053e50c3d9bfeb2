//! Prints a stream of laptop events, the same for the same seed, and counts on standard error what
//! they reach. The seed can be given, in decimal, as the first argument.

use second::generating::{print, seed};
use second::watcher::generator::generate;
use second::watcher::tally::Tally;
use std::error::Error;
use std::process::ExitCode;

fn main() -> Result<ExitCode, Box<dyn Error>> {
    let events = generate(seed()?);
    let mut tally = Tally::default();
    let mut stream = Vec::new();
    for event in &events {
        tally.count(event);
        event.put(&mut stream)?;
    }
    let totals = format!("events: {}, bytes: {}", events.len(), stream.len());
    let counts = format!("{tally}\n{totals}");
    Ok(print(&stream, counts, &tally.missing())?)
}
