//! What mending reaches: every outcome, and the corners of 02's R-6.

use super::{BYTES_AFTER_END, CUT_RECORD, FAULTS, OUT_OF_ORDER, UNKNOWN_KIND};
use crate::catalogue::{MOST_CATALOGUE_BYTES, RUN_WORDS};
use crate::catalogue_file::{mend, walk, Disorder, Kept, Mended, Refused};
use crate::pages::MOST_SVIDS;
use crate::record::{body_length, Record, LEAST_IDENTITY_KIND, MODE_KIND, MOST_IDENTITY_KIND};
use crate::refusals::SHORT_BUFFER;

const SOUND: &str = "mend, sound";
const SOUND_EXACT: &str = "mend, sound in a buffer of exactly its length";
const SOUND_MOST_SVIDS: &str = "mend, sound with 72 SVIDs";
const SOUND_MOST_MODES: &str = "mend, sound with 432 modes";
const PARTIAL_EXACT: &str = "mend, partial in a buffer of exactly its length";
const PARTIAL_MOST_SVIDS: &str = "mend, partial with 72 SVIDs";
const PARTIAL_MOST_MODES: &str = "mend, partial with 432 modes";
const IDENTITY_ALONE: &str = "mend, partial with the identity alone";
const MODE_CUT: &str = "mend, partial with a mode cut behind others of its SVID";
const LONGER: &str = "mend, partial and one byte longer than the damaged file";
const SHORT: &str = "mend, 11";
const SHORT_OF_SOUND: &str = "mend, 11 of a sound file";
const SHORT_OF_DAMAGED: &str = "mend, 11 of a damaged file";
const SOUND_BUT_ONE: &str = "mend, 11 of a sound file for one byte";
const DAMAGED_BUT_ONE: &str = "mend, 11 of a damaged file for one byte";
const SAME_SIZE: &str = "mend, 11 in a buffer of the damaged file's length";
const UNFOUND: &str = "mend, 19";
const NO_BYTES: &str = "mend, 19 for no bytes";
const UNKNOWN_FIRST: &str = "mend, 19 for an unknown kind first";
const IDENTITY_CUT: &str = "mend, 19 for a cut identity";
const OTHER_FIRST: &str = "mend, 19 for another kind first";
const UNFOUND_IN_NO_ROOM: &str = "mend, 19 in a buffer of no byte";

const FIXED: [&str; 22] = [
    SOUND,
    SOUND_EXACT,
    SOUND_MOST_SVIDS,
    SOUND_MOST_MODES,
    PARTIAL_EXACT,
    PARTIAL_MOST_SVIDS,
    PARTIAL_MOST_MODES,
    IDENTITY_ALONE,
    MODE_CUT,
    LONGER,
    SHORT,
    SHORT_OF_SOUND,
    SHORT_OF_DAMAGED,
    SOUND_BUT_ONE,
    DAMAGED_BUT_ONE,
    SAME_SIZE,
    UNFOUND,
    NO_BYTES,
    UNKNOWN_FIRST,
    IDENTITY_CUT,
    OTHER_FIRST,
    UNFOUND_IN_NO_ROOM,
];
/// Those that can stand behind an SVID without modes, and behind a mode.
const BEFORE_THE_END: [u8; 3] = [UNKNOWN_KIND, CUT_RECORD, OUT_OF_ORDER];

/// The names of what mending the file with so much room reaches.
pub fn reached(bytes: &[u8], room: usize) -> Vec<String> {
    match mend(bytes, &mut vec![0; room]) {
        Ok(Mended::Sound(kept)) => sound(kept, room),
        Ok(Mended::Partial { fault, kept }) => partial(bytes, fault, kept, room),
        Err(SHORT_BUFFER) => short(bytes, room),
        Err(_) => unfound(bytes, room),
    }
}

pub fn names() -> Vec<String> {
    let fixed = FIXED.into_iter().map(str::to_string);
    fixed
        .chain(FAULTS.map(partial_by))
        .chain(BEFORE_THE_END.map(behind_bare_svid))
        .chain(BEFORE_THE_END.map(behind_mode))
        .collect()
}

fn sound(kept: Kept, room: usize) -> Vec<String> {
    those_that_are(&[
        (SOUND, true),
        (SOUND_EXACT, kept.length == room),
        (SOUND_MOST_SVIDS, kept.svids == MOST_SVIDS),
        (SOUND_MOST_MODES, kept.modes == RUN_WORDS),
    ])
}

fn partial(bytes: &[u8], fault: Refused, kept: Kept, room: usize) -> Vec<String> {
    let mut names = those_that_are(&[
        (PARTIAL_EXACT, kept.length == room),
        (PARTIAL_MOST_SVIDS, kept.svids == MOST_SVIDS),
        (PARTIAL_MOST_MODES, kept.modes == RUN_WORDS),
        (IDENTITY_ALONE, kept.svids == 0),
        (LONGER, kept.length == bytes.len() + 1),
    ]);
    names.push(partial_by(fault.refusal));
    if fault.refusal != BYTES_AFTER_END {
        names.extend(before_the_end(bytes, fault));
    }
    names
}

/// By what stands before the fault.
fn before_the_end(bytes: &[u8], fault: Refused) -> Vec<String> {
    let (gathered, _) = walk(bytes);
    if gathered.disorder(&Record::End) == Some(Disorder::BehindBareSvid) {
        return vec![behind_bare_svid(fault.refusal)];
    }
    if gathered.svids().is_empty() {
        return Vec::new();
    }
    let is_mode = bytes.get(fault.offset) == Some(&MODE_KIND);
    let mut names = those_that_are(&[(MODE_CUT, is_mode && fault.refusal == CUT_RECORD)]);
    names.push(behind_mode(fault.refusal));
    names
}

fn short(bytes: &[u8], room: usize) -> Vec<String> {
    let Ok(mended) = mend(bytes, &mut [0; MOST_CATALOGUE_BYTES]) else {
        return Vec::new();
    };
    let is_sound = matches!(mended, Mended::Sound(_));
    let is_one_missing = mended.kept().length == room + 1;
    those_that_are(&[
        (SHORT, true),
        (SHORT_OF_SOUND, is_sound),
        (SHORT_OF_DAMAGED, !is_sound),
        (SOUND_BUT_ONE, is_sound && is_one_missing),
        (DAMAGED_BUT_ONE, !is_sound && is_one_missing),
        (SAME_SIZE, room == bytes.len()),
    ])
}

fn unfound(bytes: &[u8], room: usize) -> Vec<String> {
    let reason = match bytes.first() {
        None => NO_BYTES,
        Some(LEAST_IDENTITY_KIND..=MOST_IDENTITY_KIND) => IDENTITY_CUT,
        Some(&kind) if body_length(kind).is_none() => UNKNOWN_FIRST,
        Some(_) => OTHER_FIRST,
    };
    those_that_are(&[
        (UNFOUND, true),
        (reason, true),
        (UNFOUND_IN_NO_ROOM, room == 0),
    ])
}

fn those_that_are(names: &[(&str, bool)]) -> Vec<String> {
    let names = names.iter().filter(|(_, is_so)| *is_so);
    names.map(|(name, _)| name.to_string()).collect()
}

fn partial_by(refusal: u8) -> String {
    format!("mend, partial by {refusal}")
}

fn behind_bare_svid(refusal: u8) -> String {
    format!("mend, partial by {refusal} behind an SVID that is left out")
}

fn behind_mode(refusal: u8) -> String {
    format!("mend, partial by {refusal} behind a mode")
}
