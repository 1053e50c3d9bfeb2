//! Answers a stream of dock events, a line each.

use super::{Event, Run};
use crate::stream::{print_hex, print_lines};
use std::io::{self, BufRead, Write};

pub fn print_answers(input: &mut impl BufRead, output: &mut impl Write) -> io::Result<()> {
    writeln!(
        output,
        "event refusal length buffer standing page count edition"
    )?;
    let mut run = Run::default();
    print_lines("events", input, output, |number, input, output| {
        let event = Event::take(input)?;
        Ok(print_answer(number, &event, &mut run, output)?)
    })
}

fn print_answer(
    number: usize,
    event: &Event,
    run: &mut Run,
    output: &mut impl Write,
) -> io::Result<()> {
    let outcome = run.take(event);
    write!(output, "{number} {} {} ", outcome.refusal, outcome.length)?;
    match run.buffer() {
        [] => write!(output, "-")?,
        buffer => print_hex(buffer, output)?,
    }
    let page = run.dock().page();
    let count = run.dock().svid_count();
    let edition = run.dock().edition();
    writeln!(output, " {} {page} {count} {edition}", run.standing())
}
