//! What the programs that print a generated stream have in common.

use std::fmt::Display;
use std::io::{self, Write};
use std::num::ParseIntError;
use std::process::ExitCode;

/// The seed of the streams that are stored.
pub const SEED: u64 = 0x5EED_0000_0000_0001;
const STREAM: &str = "--stream";

/// What a generator of many streams is asked for.
pub enum Asked {
    /// All streams that are stored, one after the other.
    Stored,
    /// The stored stream of that number alone.
    Stream(u64),
    /// One long stream of the seed.
    Seed(u64),
}

/// No argument, `--stream` and a number, or a seed.
pub fn asked() -> Result<Asked, ParseIntError> {
    let mut arguments = std::env::args().skip(1);
    Ok(match arguments.next() {
        None => Asked::Stored,
        Some(argument) if argument == STREAM => {
            Asked::Stream(arguments.next().unwrap_or_default().parse()?)
        }
        Some(seed) => Asked::Seed(seed.parse()?),
    })
}

/// The seed given, in decimal, as the first argument, or else ours.
pub fn seed() -> Result<u64, ParseIntError> {
    match std::env::args().nth(1) {
        Some(argument) => argument.parse(),
        None => Ok(SEED),
    }
}

/// Prints the stream, and on standard error the counts and what is missing: then the program fails.
pub fn print(stream: &[u8], counts: impl Display, missing: &[String]) -> io::Result<ExitCode> {
    io::stdout().write_all(stream)?;
    eprintln!("{counts}");
    for line in missing {
        eprintln!("{line}");
    }
    Ok(ExitCode::from(u8::from(!missing.is_empty())))
}
