//! Counts what a stream of catalogue files reaches, and tells what it never reaches.

mod mending;

use super::file::{WHOLE_ROOM, WHOLE_RUN};
use super::{Asked, File};
use crate::catalogue::{LEAST_OBJECTS, MOST_MODES, RUN_WORDS};
use crate::catalogue_file::{stretch, walk, Disorder, Gathered, Lent, Refused, Sizes};
use crate::counts::Counts;
use crate::messages::MOST_AFTER_HEADER;
use crate::pages::MOST_SVIDS;
use crate::record::{Record, MODE_BYTES, MOST_IDENTITY_BYTES};
use crate::refusals::{
    ACCEPTED, BYTES_AFTER_END, CUT_RECORD, NOT_HELD, OUT_OF_ORDER, SHORT_RUN, UNKNOWN_KIND,
};

const FAULTS: [u8; 4] = [UNKNOWN_KIND, CUT_RECORD, OUT_OF_ORDER, BYTES_AFTER_END];
const DISORDERS: [Disorder; 8] = [
    Disorder::BeforeIdentity,
    Disorder::IdentityAgain,
    Disorder::BehindBareSvid,
    Disorder::SvidZero,
    Disorder::SvidAgain,
    Disorder::SvidPastLast,
    Disorder::ModeWithoutSvid,
    Disorder::ModePastLast,
];

const UNKNOWN_AND_CUT: &str = "15 where the bytes stop behind the kind";
const UNKNOWN_BEHIND_BARE_SVID: &str = "15 behind an SVID without modes";
const CUT_AND_OUT_OF_ORDER: &str = "16 of a record that is out of order when it is whole";
const CUT_AT_BORDER: &str = "16 where the bytes stop at a border";
const OUT_OF_ORDER_AND_BYTES: &str = "17 of an end with bytes behind it";
const PAST_BYTES: &str = "past the bytes";
/// What a record is answered with, beside refusals and the above.
const RECORDS: [&str; 5] = ["identity", "svid", "mode", "end", "nothing"];

/// What a cut record is made whole with.
const FILLING: u8 = 0xA7;

#[derive(Default)]
pub struct Tally {
    counts: Counts,
}

impl Tally {
    pub fn count(&mut self, file: &File) {
        match file.asked {
            Asked::Catalogue { words, svid, room } => {
                self.count_reading(&file.bytes, words);
                self.count_stretch(&file.bytes, svid);
                self.count_mending(&file.bytes, room);
            }
            Asked::Record { offset } => self.count_record(&file.bytes, usize::from(offset)),
        }
    }

    fn count_reading(&mut self, bytes: &[u8], words: u16) {
        let words = usize::from(words.min(WHOLE_RUN));
        let mut lent = Lent::filled_with(0, words);
        match lent.read(bytes, words) {
            Ok(sizes) => self.count_sizes(&sizes),
            Err(refused) => {
                self.counts.add(reading(refused.refusal));
                self.count_fault(bytes, refused);
            }
        }
    }

    fn count_sizes(&mut self, sizes: &Sizes) {
        self.counts.add(reading(ACCEPTED));
        self.counts.add(identity(sizes.objects));
        self.counts.add(list(sizes.svids));
        self.counts.add(modes(sizes.modes));
    }

    /// Faults that meet at one record show their order.
    fn count_fault(&mut self, bytes: &[u8], refused: Refused) {
        let (gathered, _) = walk(bytes);
        let rest = &bytes[refused.offset..];
        match refused.refusal {
            UNKNOWN_KIND => self.count_unknown(&gathered, rest),
            CUT_RECORD => self.count_cut(&gathered, rest),
            OUT_OF_ORDER => self.count_disorder(&gathered, rest),
            _ => {}
        }
    }

    fn count_unknown(&mut self, gathered: &Gathered, rest: &[u8]) {
        if rest.len() == 1 {
            self.counts.add(UNKNOWN_AND_CUT.to_string());
        }
        if gathered.disorder(&Record::End) == Some(Disorder::BehindBareSvid) {
            self.counts.add(UNKNOWN_BEHIND_BARE_SVID.to_string());
        }
    }

    fn count_cut(&mut self, gathered: &Gathered, rest: &[u8]) {
        match filled(rest) {
            None => self.counts.add(CUT_AT_BORDER.to_string()),
            Some(record) if gathered.disorder(&record).is_some() => {
                self.counts.add(CUT_AND_OUT_OF_ORDER.to_string());
            }
            Some(_) => {}
        }
    }

    fn count_disorder(&mut self, gathered: &Gathered, rest: &[u8]) {
        let Ok(Some((record, behind))) = Record::at(rest, 0) else {
            return;
        };
        if let Some(found) = gathered.disorder(&record) {
            self.counts.add(disorder(found));
        }
        if record == Record::End && behind < rest.len() {
            self.counts.add(OUT_OF_ORDER_AND_BYTES.to_string());
        }
    }

    fn count_stretch(&mut self, bytes: &[u8], svid: u16) {
        match stretch(bytes, svid) {
            Ok(places) => {
                self.counts.add(stretch_answer(ACCEPTED));
                self.counts.add(stretch_of(places.len() / MODE_BYTES));
            }
            Err(refused) => self.counts.add(stretch_answer(refused.refusal)),
        }
    }

    fn count_mending(&mut self, bytes: &[u8], room: u16) {
        let room = usize::from(room.min(WHOLE_ROOM));
        for name in mending::reached(bytes, room) {
            self.counts.add(name);
        }
    }

    fn count_record(&mut self, bytes: &[u8], offset: usize) {
        let answer = match Record::at(bytes, offset) {
            Ok(Some((Record::Identity(_), _))) => "identity".to_string(),
            Ok(Some((Record::Svid(_), _))) => "svid".to_string(),
            Ok(Some((Record::Mode(_), _))) => "mode".to_string(),
            Ok(Some((Record::End, _))) => "end".to_string(),
            Ok(None) => "nothing".to_string(),
            Err(_) if offset > bytes.len() => PAST_BYTES.to_string(),
            Err(refusal) => refusal.to_string(),
        };
        self.counts.add(record(&answer));
    }

    /// A line for each name that never occurred.
    pub fn missing(&self) -> Vec<String> {
        self.counts.missing(&names())
    }

    /// Every name that is looked for, with its count.
    pub fn table(&self) -> String {
        self.counts.table(&names())
    }
}

/// The cut record of which these bytes are the start, made whole; nothing if there are none.
fn filled(start: &[u8]) -> Option<Record> {
    if start.is_empty() {
        return None;
    }
    let bytes = [start, &[FILLING; MOST_IDENTITY_BYTES]].concat();
    let (record, _) = Record::at(&bytes, 0).ok()??;
    Some(record)
}

fn names() -> Vec<String> {
    let readings = [ACCEPTED, SHORT_RUN].into_iter().chain(FAULTS).map(reading);
    let stretches = [ACCEPTED, NOT_HELD].into_iter().chain(FAULTS);
    let stretches = stretches.map(stretch_answer);
    let meetings = [
        UNKNOWN_AND_CUT,
        UNKNOWN_BEHIND_BARE_SVID,
        CUT_AND_OUT_OF_ORDER,
        CUT_AT_BORDER,
        OUT_OF_ORDER_AND_BYTES,
    ];
    let refused = [UNKNOWN_KIND, CUT_RECORD].map(|refusal| refusal.to_string());
    let records = RECORDS.into_iter().chain([PAST_BYTES]).map(str::to_string);
    readings
        .chain(stretches)
        .chain(DISORDERS.map(disorder))
        .chain(meetings.map(str::to_string))
        .chain((LEAST_OBJECTS..=MOST_AFTER_HEADER).map(identity))
        .chain([0, 1, MOST_SVIDS - 1, MOST_SVIDS].map(list))
        .chain([RUN_WORDS].map(modes))
        .chain((1..=MOST_MODES).map(stretch_of))
        .chain(records.chain(refused).map(|answer| record(&answer)))
        .chain(mending::names())
        .collect()
}

fn reading(refusal: u8) -> String {
    format!("read {refusal}")
}

fn stretch_answer(refusal: u8) -> String {
    format!("stretch {refusal}")
}

fn disorder(disorder: Disorder) -> String {
    let reason = match disorder {
        Disorder::BeforeIdentity => "another record before the identity",
        Disorder::IdentityAgain => "identity again",
        Disorder::BehindBareSvid => "SVID or end behind an SVID without modes",
        Disorder::SvidZero => "SVID 0",
        Disorder::SvidAgain => "SVID again",
        Disorder::SvidPastLast => "73rd SVID",
        Disorder::ModeWithoutSvid => "mode without an SVID",
        Disorder::ModePastLast => "7th mode",
    };
    format!("17 for {reason}")
}

fn identity(objects: usize) -> String {
    format!("identity of {objects} objects")
}

fn list(svids: usize) -> String {
    format!("list of {svids} SVIDs")
}

fn modes(count: usize) -> String {
    format!("{count} modes in all")
}

fn stretch_of(modes: usize) -> String {
    format!("stretch of {modes} modes")
}

fn record(answer: &str) -> String {
    format!("record {answer}")
}
