//! Reading a catalogue file (02, R-1): its records are walked from the front, one at a time, up to
//! the first fault; only a sound file is rebuilt. What stands before a fault can be mended.

mod gathered;
mod lent;
mod mended;

use crate::catalogue::{Catalogue, RUN_WORDS};
use crate::record::Record;
use crate::refusals::{BYTES_AFTER_END, CUT_RECORD, NOT_HELD, OUT_OF_ORDER, SHORT_RUN};
use std::ops::Range;

pub use gathered::{Disorder, Gathered};
pub use lent::{Lent, Sizes};
pub use mended::{mend, Kept, Mended};

/// A refusal, and where the walk stands with it: at the start of the record that is at fault. One
/// that is no fault of the file has the offset 0.
#[derive(Clone, Copy, Debug, PartialEq, Eq)]
pub struct Refused {
    pub refusal: u8,
    pub offset: usize,
}

/// Rebuilds the catalogue, with its modes in the run. A refusal changes no word of the run: 11 for
/// a short one, before all others, and else the first fault.
pub fn read(bytes: &[u8], run: &mut [u32]) -> Result<Catalogue, Refused> {
    if run.len() < RUN_WORDS {
        return Err(Refused::but_no_fault(SHORT_RUN));
    }
    Ok(judge(bytes)?.rebuild(run))
}

/// Where in the bytes the mode records of the SVID are. It is refused with the first fault, and 12
/// if a sound file lacks the SVID.
pub fn stretch(bytes: &[u8], svid: u16) -> Result<Range<usize>, Refused> {
    judge(bytes)?
        .stretch(svid)
        .ok_or(Refused::but_no_fault(NOT_HELD))
}

fn judge(bytes: &[u8]) -> Result<Gathered, Refused> {
    match walk(bytes) {
        (gathered, None) => Ok(gathered),
        (_, Some(fault)) => Err(fault),
    }
}

/// What the whole records before the first fault have, and that fault.
pub fn walk(bytes: &[u8]) -> (Gathered, Option<Refused>) {
    let mut gathered = Gathered::default();
    let mut offset = 0;
    while !gathered.is_ended() {
        match next(bytes, offset, &gathered) {
            Ok((record, behind)) => {
                gathered.add(record, behind);
                offset = behind;
            }
            Err(refusal) => return (gathered, Some(Refused { refusal, offset })),
        }
    }
    let refusal = BYTES_AFTER_END;
    let fault = (offset < bytes.len()).then_some(Refused { refusal, offset });
    (gathered, fault)
}

/// The record at the offset, with the offset behind it, if it may stand behind those gathered.
fn next(bytes: &[u8], offset: usize, gathered: &Gathered) -> Result<(Record, usize), u8> {
    let (record, behind) = Record::at(bytes, offset)?.ok_or(CUT_RECORD)?;
    match gathered.disorder(&record) {
        None => Ok((record, behind)),
        Some(_) => Err(OUT_OF_ORDER),
    }
}

impl Refused {
    fn but_no_fault(refusal: u8) -> Self {
        Refused { refusal, offset: 0 }
    }
}
