//! Streams of bytes that both implementations answer with a line for each item.

use std::fmt;
use std::io::{self, BufRead, ErrorKind, Read, Write};

/// After so many items the input counts as ended.
const MOST_ITEMS: usize = 1_000_000;
/// After so many streams, too.
const MOST_STREAMS: usize = 1_000_000;
/// What an output buffer holds before a call.
pub const UNWRITTEN: u8 = 0x5A;

/// Why the stream gives no further item.
pub enum Stop {
    End,
    UnknownKind,
    Cut,
    /// What a stream of link events begins with is cut or breaks a limit.
    BadDockData,
    Failed(io::Error),
}

impl From<io::Error> for Stop {
    fn from(error: io::Error) -> Self {
        match error.kind() {
            ErrorKind::UnexpectedEof => Stop::Cut,
            _ => Stop::Failed(error),
        }
    }
}

/// A stream by its number, and an event by its number in that stream.
#[derive(Clone, Copy, Debug, PartialEq, Eq)]
pub struct Place {
    pub stream: usize,
    pub event: usize,
}

impl Place {
    /// Before the first event of the first stream.
    pub const FIRST: Place = Place {
        stream: 1,
        event: 0,
    };

    /// Before the first event of the next stream.
    pub fn next_stream(self) -> Result<Self, Stop> {
        if self.stream == MOST_STREAMS {
            return Err(Stop::End);
        }
        Ok(Place {
            stream: self.stream + 1,
            event: 0,
        })
    }

    pub fn next_event(self) -> Self {
        Place {
            event: self.event + 1,
            ..self
        }
    }
}

/// As the first two columns of a line.
impl fmt::Display for Place {
    fn fmt(&self, formatter: &mut fmt::Formatter) -> fmt::Result {
        write!(formatter, "{} {}", self.stream, self.event)
    }
}

/// The byte that opens the next item.
pub fn take_kind(input: &mut impl BufRead) -> Result<u8, Stop> {
    match input.by_ref().bytes().next() {
        Some(kind) => Ok(kind?),
        None => Err(Stop::End),
    }
}

pub fn take_bytes<const COUNT: usize>(input: &mut impl Read) -> Result<[u8; COUNT], Stop> {
    let mut bytes = [0; COUNT];
    input.read_exact(&mut bytes)?;
    Ok(bytes)
}

pub fn take_run(input: &mut impl Read, count: impl Into<usize>) -> Result<Vec<u8>, Stop> {
    let mut bytes = vec![0; count.into()];
    input.read_exact(&mut bytes)?;
    Ok(bytes)
}

pub fn take_objects(input: &mut impl Read, count: u8) -> Result<Vec<u32>, Stop> {
    (0..count)
        .map(|_| Ok(u32::from_le_bytes(take_bytes(input)?)))
        .collect()
}

pub fn put_objects(objects: &[u32], output: &mut impl Write) -> io::Result<()> {
    objects
        .iter()
        .try_for_each(|object| output.write_all(&object.to_le_bytes()))
}

/// The byte that says how many there are.
pub fn count_byte<T>(items: &[T]) -> u8 {
    u8::try_from(items.len()).expect("an item holds at most 255 of a sort")
}

/// Answers each item with a line by `answer`, which is told the item's number, and ends with the
/// line that says how many there were and why there are no more.
pub fn print_lines<Input: BufRead, Output: Write>(
    items: &str,
    input: &mut Input,
    output: &mut Output,
    mut answer: impl FnMut(usize, &mut Input, &mut Output) -> Result<(), Stop>,
) -> io::Result<()> {
    let mut printed = 0;
    let stop = loop {
        if printed == MOST_ITEMS {
            break Stop::End;
        }
        if let Err(stop) = answer(printed + 1, input, output) {
            break stop;
        }
        printed += 1;
    };
    match stop {
        Stop::End => writeln!(output, "end {printed} {items}"),
        Stop::UnknownKind => writeln!(output, "unknown kind after {printed} {items}"),
        Stop::Cut => writeln!(output, "cut after {printed} {items}"),
        Stop::BadDockData => writeln!(output, "bad dock data"),
        Stop::Failed(error) => Err(error),
    }
}

pub fn print_hex(bytes: &[u8], output: &mut impl Write) -> io::Result<()> {
    bytes
        .iter()
        .try_for_each(|byte| write!(output, "{byte:02X}"))
}
