//! Answers a stream of catalogue files, a line each.

use super::file::{WHOLE_ROOM, WHOLE_RUN};
use super::{Asked, File};
use crate::catalogue_file::{mend, stretch, Kept, Lent, Mended, Refused, Sizes};
use crate::digest;
use crate::fields::NOTHING;
use crate::record::Record;
use crate::refusals::ACCEPTED;
use crate::stream::{print_hex, print_lines};
use std::io::{self, BufRead, Write};

/// What every byte that is lent holds before a file.
const UNWRITTEN: u8 = 0xEE;
/// Stands for the fault where none is named.
const NO_FAULT: Refused = Refused {
    refusal: ACCEPTED,
    offset: 0,
};

pub fn print_answers(input: &mut impl BufRead, output: &mut impl Write) -> io::Result<()> {
    writeln!(output, "file answer")?;
    print_lines("files", input, output, |number, input, output| {
        let file = File::take(input)?;
        Ok(print_answer(number, &file, output)?)
    })
}

fn print_answer(number: usize, file: &File, output: &mut impl Write) -> io::Result<()> {
    write!(output, "{number} ")?;
    match file.asked {
        Asked::Catalogue { words, svid, room } => {
            print_reading(&file.bytes, words, output)?;
            write!(output, " ")?;
            print_stretch(&file.bytes, svid, output)?;
            write!(output, " ")?;
            print_mending(&file.bytes, room, output)?;
        }
        Asked::Record { offset } => print_record(&file.bytes, offset, output)?,
    }
    writeln!(output)
}

fn print_reading(bytes: &[u8], words: u16, output: &mut impl Write) -> io::Result<()> {
    let mut lent = Lent::filled_with(UNWRITTEN, usize::from(WHOLE_RUN));
    let result = lent.read(bytes, usize::from(words.min(WHOLE_RUN)));
    let (refusal, offset) = match result {
        Ok(_) => (ACCEPTED, bytes.len()),
        Err(refused) => (refused.refusal, refused.offset),
    };
    let Sizes {
        objects,
        svids,
        modes,
    } = result.unwrap_or_default();
    write!(
        output,
        "read {refusal} {offset} {objects} {svids} {modes} {:08X} {:08X} {:08X} {:08X}",
        digest::of_words(&lent.identity),
        digest::of_svids(&lent.svids),
        digest::of_bytes(&lent.mode_counts),
        digest::of_words(&lent.run)
    )
}

fn print_stretch(bytes: &[u8], svid: u16, output: &mut impl Write) -> io::Result<()> {
    match stretch(bytes, svid) {
        Ok(places) => {
            write!(output, "stretch {ACCEPTED} {} ", places.start)?;
            print_hex(&bytes[places], output)
        }
        Err(refused) => {
            let (refusal, offset) = (refused.refusal, refused.offset);
            write!(output, "stretch {refusal} {offset} {NOTHING}")
        }
    }
}

fn print_mending(bytes: &[u8], room: u16, output: &mut impl Write) -> io::Result<()> {
    let mut out = [UNWRITTEN; WHOLE_ROOM as usize];
    let room = usize::from(room.min(WHOLE_ROOM));
    let (refusal, name, fault, kept) = match mend(bytes, &mut out[..room]) {
        Ok(Mended::Sound(kept)) => (ACCEPTED, "sound", NO_FAULT, kept),
        Ok(Mended::Partial { fault, kept }) => (ACCEPTED, "partial", fault, kept),
        Err(refusal) => (refusal, NOTHING, NO_FAULT, Kept::default()),
    };
    let Kept {
        svids,
        modes,
        length,
    } = kept;
    let (number, offset) = (fault.refusal, fault.offset);
    let digest = digest::of_bytes(&out);
    write!(
        output,
        "mend {refusal} {name} {number} {offset} {svids} {modes} {length} {digest:08X}"
    )
}

fn print_record(bytes: &[u8], offset: u16, output: &mut impl Write) -> io::Result<()> {
    write!(output, "record ")?;
    let (record, behind) = match Record::at(bytes, usize::from(offset)) {
        Ok(Some(found)) => found,
        Ok(None) => return write!(output, "nothing"),
        Err(refusal) => return write!(output, "{refusal}"),
    };
    match record {
        Record::Identity(objects) => write!(output, "identity {} {behind}", objects.len()),
        Record::Svid(svid) => write!(output, "svid {svid:04X} {behind}"),
        Record::Mode(mode) => write!(output, "mode {mode:08X} {behind}"),
        Record::End => write!(output, "end {behind}"),
    }
}
