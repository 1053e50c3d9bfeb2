//! Answers a stream of vectors, a line each.

use super::Vector;
use crate::messages;
use crate::refusals::ACCEPTED;
use crate::stream::{print_hex, print_lines, UNWRITTEN};
use std::io::{self, BufRead, Write};

pub fn print_answers(input: &mut impl BufRead, output: &mut impl Write) -> io::Result<()> {
    writeln!(output, "vector answer")?;
    print_lines("vectors", input, output, |number, input, output| {
        let vector = Vector::take(input)?;
        Ok(print_answer(number, &vector, output)?)
    })
}

fn print_answer(number: usize, vector: &Vector, output: &mut impl Write) -> io::Result<()> {
    match vector {
        Vector::Read { bytes } => {
            write!(output, "{number} read ")?;
            print_reading(bytes, output)?;
        }
        Vector::Write {
            svid,
            command,
            kind,
            position,
            edition,
            room,
            objects,
        } => {
            let mut buffer = vec![UNWRITTEN; usize::from(*room)];
            let answer = messages::write(
                *svid,
                *command,
                *kind,
                *position,
                *edition,
                objects,
                &mut buffer,
            );
            write!(output, "{number} write {answer}")?;
            print_buffer(&buffer, output)?;
        }
    }
    writeln!(output)
}

fn print_reading(bytes: &[u8], output: &mut impl Write) -> io::Result<()> {
    let message = match messages::read(bytes) {
        Ok(message) => message,
        Err(refusal) => return write!(output, "{refusal}"),
    };
    write!(
        output,
        "{ACCEPTED} {} {:04X} {} {} {}",
        message.edition, message.svid, message.command, message.kind, message.position
    )?;
    message
        .objects
        .as_slice()
        .iter()
        .try_for_each(|object| write!(output, " {object:08X}"))
}

fn print_buffer(buffer: &[u8], output: &mut impl Write) -> io::Result<()> {
    if buffer.is_empty() {
        return Ok(());
    }
    write!(output, " ")?;
    print_hex(buffer, output)
}
