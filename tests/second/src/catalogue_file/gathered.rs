//! What whole records from the front of a file amount to, and which record may come next.

use crate::catalogue::{Catalogue, MOST_MODES};
use crate::pages::MOST_SVIDS;
use crate::record::Record;
use std::ops::Range;

#[derive(Default)]
pub struct Gathered {
    /// Nothing before the first record.
    identity: Option<Vec<u32>>,
    listed: Vec<Listed>,
    is_ended: bool,
}

/// An SVID with its modes so far, and where in the file their records are.
struct Listed {
    svid: u16,
    modes: Vec<u32>,
    stretch: Range<usize>,
}

/// Why a record may not come next.
#[derive(Clone, Copy, Debug, PartialEq, Eq)]
pub enum Disorder {
    BeforeIdentity,
    IdentityAgain,
    /// An SVID or the end behind an SVID without modes.
    BehindBareSvid,
    SvidZero,
    SvidAgain,
    SvidPastLast,
    ModeWithoutSvid,
    ModePastLast,
}

impl Gathered {
    pub fn is_ended(&self) -> bool {
        self.is_ended
    }

    pub fn svids(&self) -> Vec<u16> {
        self.listed.iter().map(|listed| listed.svid).collect()
    }

    /// Why no sound file has this record behind the records so far, if it is so.
    pub fn disorder(&self, record: &Record) -> Option<Disorder> {
        if self.identity.is_none() {
            let is_identity = matches!(record, Record::Identity(_));
            return (!is_identity).then_some(Disorder::BeforeIdentity);
        }
        match record {
            Record::Identity(_) => Some(Disorder::IdentityAgain),
            Record::Svid(svid) => self.disorder_of_svid(*svid),
            Record::Mode(_) => self.disorder_of_mode(),
            Record::End => self.has_bare_svid().then_some(Disorder::BehindBareSvid),
        }
    }

    fn disorder_of_svid(&self, svid: u16) -> Option<Disorder> {
        if self.has_bare_svid() {
            Some(Disorder::BehindBareSvid)
        } else if svid == 0 {
            Some(Disorder::SvidZero)
        } else if self.svids().contains(&svid) {
            Some(Disorder::SvidAgain)
        } else if self.listed.len() == MOST_SVIDS {
            Some(Disorder::SvidPastLast)
        } else {
            None
        }
    }

    fn disorder_of_mode(&self) -> Option<Disorder> {
        match self.listed.last() {
            None => Some(Disorder::ModeWithoutSvid),
            Some(listed) if listed.modes.len() == MOST_MODES => Some(Disorder::ModePastLast),
            Some(_) => None,
        }
    }

    fn has_bare_svid(&self) -> bool {
        let last = self.listed.last();
        last.is_some_and(|listed| listed.modes.is_empty())
    }

    /// Adds a record that may come next; `behind` is the offset behind it.
    pub(super) fn add(&mut self, record: Record, behind: usize) {
        match record {
            Record::Identity(objects) => self.identity = Some(objects),
            Record::Svid(svid) => self.listed.push(Listed {
                svid,
                modes: Vec::new(),
                stretch: behind..behind,
            }),
            Record::Mode(mode) => {
                if let Some(listed) = self.listed.last_mut() {
                    listed.modes.push(mode);
                    listed.stretch.end = behind;
                }
            }
            Record::End => self.is_ended = true,
        }
    }

    pub(super) fn stretch(self, svid: u16) -> Option<Range<usize>> {
        let mut listed = self.listed.into_iter();
        let named = listed.find(|listed| listed.svid == svid);
        named.map(|listed| listed.stretch)
    }

    /// The records of the sound file that keeps most of these: without a last SVID that has no
    /// modes, and with an end. Nothing without an identity.
    pub(super) fn into_sound(self) -> Option<Vec<Record>> {
        let mut records = vec![Record::Identity(self.identity?)];
        for listed in self.listed {
            if !listed.modes.is_empty() {
                records.push(Record::Svid(listed.svid));
                records.extend(listed.modes.into_iter().map(Record::Mode));
            }
        }
        records.push(Record::End);
        Some(records)
    }

    /// The catalogue of a sound file, its modes stored in the run.
    pub(super) fn rebuild(self, run: &mut [u32]) -> Catalogue {
        let mut catalogue = Catalogue::of_identity(&self.identity.unwrap_or_default());
        for listed in self.listed {
            catalogue.svids.push(listed.svid);
            catalogue.store_modes(&listed.modes, run);
        }
        catalogue
    }
}
