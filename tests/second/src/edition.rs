//! The editions of Structured VDM (02, R-5): which is lower, and the number, text and version of each.

use std::fmt;

/// From the lowest to the highest, which is ours.
#[derive(Clone, Copy, Debug, Default, PartialEq, Eq, PartialOrd, Ord)]
pub enum Edition {
    OneZero,
    TwoZero,
    #[default]
    TwoOne,
}

pub const OURS: Edition = Edition::TwoOne;

impl Edition {
    pub const ALL: [Edition; 3] = [Edition::OneZero, Edition::TwoZero, Edition::TwoOne];

    /// The two others.
    pub fn others(self) -> impl Iterator<Item = Edition> {
        let all = Edition::ALL.into_iter();
        all.filter(move |&other| other != self)
    }

    /// The edition at which two that speak these understand each other.
    pub fn lower(self, other: Self) -> Self {
        self.min(other)
    }

    pub fn number(self) -> u8 {
        match self {
            Edition::OneZero => 10,
            Edition::TwoZero => 20,
            Edition::TwoOne => 21,
        }
    }

    pub fn of_number(number: u8) -> Option<Self> {
        Edition::ALL
            .into_iter()
            .find(|edition| edition.number() == number)
    }

    /// The major and the minor that are written.
    pub fn version(self) -> (u8, u8) {
        match self {
            Edition::OneZero => (0, 0),
            Edition::TwoZero => (1, 0),
            Edition::TwoOne => (1, 1),
        }
    }

    /// What a header's major and minor are read as.
    pub fn of_version(major: u8, minor: u8) -> Option<Self> {
        match (major, minor) {
            (0, _) => Some(Edition::OneZero),
            (1, 0) => Some(Edition::TwoZero),
            (1, _) => Some(Edition::TwoOne),
            _ => None,
        }
    }
}

/// As a field of a line.
impl fmt::Display for Edition {
    fn fmt(&self, formatter: &mut fmt::Formatter) -> fmt::Result {
        formatter.write_str(match self {
            Edition::OneZero => "1.0",
            Edition::TwoZero => "2.0",
            Edition::TwoOne => "2.1",
        })
    }
}
