//! Reading a catalogue's bytes, for a caller that lends arrays.

use super::{changed, written, Line, Words, UNWRITTEN};
use crate::catalogue::RUN_WORDS;
use crate::catalogue_file::{stretch, Lent, Refused, Sizes};

pub fn read(words: &mut Words) -> Line {
    let (run_words, bytes) = (words.decimal()?, words.bytes()?);
    let before = Lent::filled_with(UNWRITTEN, RUN_WORDS);
    let mut lent = before.clone();
    Ok(match lent.read(&bytes, run_words) {
        Ok(sizes) => {
            let shown = show(&lent, &sizes);
            let run = written("run", &lent.run, &before.run);
            format!("accepted, offset {}, {shown}{run}", bytes.len())
        }
        Err(refused) => {
            let parts = [
                ("read_svids", lent.svids != before.svids),
                ("read_modes", lent.mode_counts != before.mode_counts),
                ("read_identity", lent.identity != before.identity),
                ("read_run", lent.run != before.run),
            ];
            refused_at(refused, &parts)
        }
    })
}

pub fn find_stretch(words: &mut Words) -> Line {
    let (svid, bytes) = (words.hex()?, words.bytes()?);
    Ok(match stretch(&bytes, svid) {
        Ok(places) => {
            let (offset, length) = (places.start, places.len());
            let bytes = bytes[places].iter();
            let bytes: String = bytes.map(|byte| format!("{byte:02X}")).collect();
            format!("accepted, offset {offset}, length {length}, bytes {bytes}")
        }
        Err(refused) => refused_at(refused, &[]),
    })
}

pub fn refused_at(refused: Refused, parts: &[(&str, bool)]) -> String {
    let Refused { refusal, offset } = refused;
    format!("refused {refusal}, offset {offset}, {}", changed(parts))
}

fn show(lent: &Lent, sizes: &Sizes) -> String {
    let Sizes {
        objects,
        svids,
        modes,
    } = *sizes;
    let sizes = format!("sizes {objects} {svids} {modes}");
    let identity = numbers("identity", 8, &lent.identity, objects);
    let listed = numbers("svids", 4, &lent.svids, svids);
    let counts = numbers("modes", 1, &lent.mode_counts, svids);
    format!("{sizes}{identity}{listed}{counts}")
}

/// The first numbers of an array, in so many digits, and any behind them that is not 0.
fn numbers<Number: Copy + Into<u32>>(
    name: &str,
    digits: usize,
    array: &[Number],
    count: usize,
) -> String {
    let array = array.iter().map(|&number| number.into());
    let shown = array.enumerate().filter_map(|(place, number): (_, u32)| {
        if place < count {
            Some(format!(" {number:0digits$X}"))
        } else if number != 0 {
            Some(format!(", {name} {place} is {number:0digits$X}"))
        } else {
            None
        }
    });
    let nothing = if count == 0 { " nothing" } else { "" };
    format!(", {name}{nothing}{}", shown.collect::<String>())
}
