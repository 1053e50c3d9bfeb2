//! Mending a catalogue's bytes, for a caller that lends a second buffer.

use super::reader::refused_at;
use super::{written_past, Line, Words, UNWRITTEN};
use crate::catalogue::MOST_CATALOGUE_BYTES;
use crate::catalogue_file::{mend, Kept, Mended, Refused};

/// More than any mended file has.
const MENDED_BYTES: usize = MOST_CATALOGUE_BYTES + 8;

pub fn mend_file(words: &mut Words) -> Line {
    let (room, bytes) = (words.decimal::<usize>()?, words.bytes()?);
    let mut out = [UNWRITTEN; MENDED_BYTES];
    let lent = out.get_mut(..room).ok_or("more than there is")?;
    Ok(match mend(&bytes, lent) {
        Ok(Mended::Sound(kept)) => format!("sound, {}", show(&out, kept)),
        Ok(Mended::Partial { fault, kept }) => {
            let Refused { refusal, offset } = fault;
            format!("partial {refusal}, offset {offset}, {}", show(&out, kept))
        }
        Err(refusal) => {
            let is_changed = out.iter().any(|&byte| byte != UNWRITTEN);
            let refused = Refused { refusal, offset: 0 };
            refused_at(refused, &[("mended", is_changed)])
        }
    })
}

fn show(out: &[u8], kept: Kept) -> String {
    let Kept {
        svids,
        modes,
        length,
    } = kept;
    let (file, past) = out.split_at(length);
    let bytes: String = file.iter().map(|byte| format!("{byte:02X}")).collect();
    let past = written_past(past, length);
    format!("kept {svids} {modes} {length}, bytes {bytes}{past}")
}
