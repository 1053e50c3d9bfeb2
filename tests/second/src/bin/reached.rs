//! Counts what the files given reach, each of them lines of laptop_events, dock_events, watcher or
//! link_events, or a stream of laptop events. Fails if something of the table was never reached, or
//! a number that is withdrawn was.

use second::laptop_events::answers::print_answers;
use second::reached::{are_lines, beside_refusals, refusals, Reached};
use std::error::Error;
use std::fs;
use std::process::ExitCode;

fn main() -> Result<ExitCode, Box<dyn Error>> {
    let mut reached = Reached::default();
    for path in std::env::args().skip(1) {
        let bytes = fs::read(&path)?;
        let count = reached.count_lines(&lines(bytes)?);
        println!("{path}: {count} events");
    }
    println!("{reached}");
    let mut wrong = reached.missing(&[refusals(), beside_refusals()].concat());
    wrong.extend(reached.withdrawn());
    for line in &wrong {
        println!("{line}");
    }
    Ok(ExitCode::from(u8::from(!wrong.is_empty())))
}

/// The lines themselves, or what the stream is answered with.
fn lines(bytes: Vec<u8>) -> Result<String, Box<dyn Error>> {
    if are_lines(&bytes) {
        return Ok(String::from_utf8(bytes)?);
    }
    let mut lines = Vec::new();
    print_answers(&mut &bytes[..], &mut lines)?;
    Ok(String::from_utf8(lines)?)
}
