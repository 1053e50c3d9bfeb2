//! The calls that a file of steps names, made of this dock and this laptop, a line for each: what
//! `tests/c/steps.c` prints of the proved library.

mod dock_end;
mod laptop_end;
mod mender;
mod reader;
mod words;

use crate::messages::{MOST_OBJECTS, OBJECT_BYTES};
use dock_end::DockEnd;
use laptop_end::LaptopEnd;
use std::io::{self, BufRead, Write};
use words::Words;

/// Room for the longest message.
const MOST_ROOM: usize = MOST_OBJECTS * OBJECT_BYTES;
/// What stands in each byte that a call hands over in, before the call.
const UNWRITTEN: u8 = 0xA5;
/// What *again* repeats: so many steps before it.
const REPEATED: usize = 2;

type Out = [u8; MOST_ROOM];

/// What came of a step, or why it is none.
type Line = Result<String, String>;

struct Ends {
    dock: DockEnd,
    laptop: LaptopEnd,
    /// How much of the output buffer a call is lent.
    room: usize,
}

impl Ends {
    fn take(&mut self, step: &str) -> Line {
        let words = &mut Words::of(step);
        match words.name()? {
            "room" => {
                self.room = words.decimal()?;
                Ok("set".to_string())
            }
            // Numbers of the library that count as those that stood there.
            "stray" => Ok("set".to_string()),
            "catalogue_read" => reader::read(words),
            "catalogue_stretch" => reader::find_stretch(words),
            "catalogue_mend" => mender::mend_file(words),
            name if name.starts_with("dock_") => self.dock.take(name, words, self.room),
            name => self.laptop.take(name, words, self.room),
        }
    }
}

pub fn print_lines(input: &mut impl BufRead, output: &mut impl Write) -> io::Result<()> {
    let mut ends = Ends {
        dock: DockEnd::fresh(),
        laptop: LaptopEnd::fresh(),
        room: MOST_ROOM,
    };
    let lines: Vec<String> = input.lines().collect::<Result<_, _>>()?;
    for (number, line) in lines.iter().enumerate() {
        if line.is_empty() || line.starts_with('#') {
            writeln!(output, "{line}")?;
        } else if let Some(times) = line.strip_prefix("again ") {
            let repeated = &lines[number - REPEATED..number];
            repeat(&mut ends, repeated, times).map_err(io::Error::other)?;
            writeln!(output, "{line}")?;
        } else {
            let answer = ends.take(line).map_err(io::Error::other)?;
            writeln!(output, "{line}: {answer}")?;
        }
    }
    Ok(())
}

fn repeat(ends: &mut Ends, steps: &[String], times: &str) -> Result<(), String> {
    let times: usize = times.parse().map_err(|_| format!("no number: {times}"))?;
    for step in (0..times).flat_map(|_| steps) {
        ends.take(step)?;
    }
    Ok(())
}

/// The number of a refusal, and the names of what it changed.
fn refused(refusal: u8, parts: &[(&str, bool)]) -> String {
    format!("refused {refusal}, {}", changed(parts))
}

fn changed(parts: &[(&str, bool)]) -> String {
    let changed = parts.iter().filter(|(_, is_changed)| *is_changed);
    let names: Vec<&str> = changed.map(|&(name, _)| name).collect();
    let names = match &names[..] {
        [] => "nothing".to_string(),
        names => names.join(" "),
    };
    format!("changed {names}")
}

/// The objects to be sent, and any byte past them that is not as it was.
fn sends(out: &Out, length: usize) -> String {
    let (message, past) = out.split_at(length);
    let (objects, _) = message.as_chunks();
    let objects: Vec<String> = objects
        .iter()
        .map(|bytes| format!("{:08X}", u32::from_le_bytes(*bytes)))
        .collect();
    let sent = match &objects[..] {
        [] => "nothing".to_string(),
        objects => objects.join(" "),
    };
    format!("sends {sent}{}", written_past(past, length))
}

fn written_past(past: &[u8], length: usize) -> String {
    (length..)
        .zip(past)
        .filter(|(_, &byte)| byte != UNWRITTEN)
        .map(|(place, _)| format!(", writes byte {place} of the buffer"))
        .collect()
}

/// The words of a run that the call wrote.
fn written(name: &str, run: &[u32], before: &[u32]) -> String {
    (0..)
        .zip(run.iter().zip(before))
        .filter(|(_, (word, old))| word != old)
        .map(|(place, (word, _))| format!(", {name} {place} is {word:08X}"))
        .collect()
}
