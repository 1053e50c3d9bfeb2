//! Answers a stream of laptop events, a line each.

use super::{Event, Run};
use crate::fields;
use crate::side::Side;
use crate::stream::print_lines;
use std::io::{self, BufRead, Write};

pub fn print_answers(input: &mut impl BufRead, output: &mut impl Write) -> io::Result<()> {
    writeln!(output, "event refusal sent pages held")?;
    let mut run = Run::default();
    print_lines("events", input, output, |number, input, output| {
        let event = Event::take(input)?;
        Ok(print_answer(number, &event, &mut run, output)?)
    })
}

/// The line of one event: the count and the list are the cable's if the event says so, and else the
/// partner's.
pub fn print_answer(
    number: usize,
    event: &Event,
    run: &mut Run,
    output: &mut impl Write,
) -> io::Result<()> {
    let outcome = run.take(event);
    write!(output, "{number} {} ", outcome.refusal)?;
    match outcome.sent {
        Some(header) => write!(output, "{header:08X}")?,
        None => write!(output, "-")?,
    }
    let side = event.side().unwrap_or(Side::Partner);
    let pages = run.laptop().page_count(side);
    let held = fields::held_count(run.laptop(), side);
    writeln!(output, " {pages} {held}")
}
