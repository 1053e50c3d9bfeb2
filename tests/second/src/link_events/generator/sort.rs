//! Which of the short streams a number names: its sort, and the lengths of its lists.

use super::{LENGTHS, MOST_SVIDS};
use crate::pages::PAGE_SVIDS;
use crate::random::Random;
use crate::side::{Side, Sides};

/// How many streams are stored: a long one, and all sorts of short ones.
pub const STREAMS: u64 = 1 + LONG + ROUNDS * LENGTHS;
/// Each round has a stream of every length.
const ROUNDS: u64 = 22;
/// The rounds of whole gatherings, which come first: one side's with the other in between, and both.
const PARTNER_ROUND: u64 = 0;
const CABLE_ROUND: u64 = 1;
const BOTH_ROUND: u64 = 2;
/// The lists of about two hundred pages, each once to the last page and once past it.
const LONG_LISTS: [(Side, usize); 4] = [
    (Side::Partner, PAGE_SVIDS),
    (Side::Cable, PAGE_SVIDS + 1),
    (Side::Cable, 36),
    (Side::Partner, MOST_SVIDS),
];
const LONG: u64 = 2 * LONG_LISTS.len() as u64;
/// The lists of the side that only comes in between.
const OTHER_LISTS: [usize; 6] = [0, 1, 2, 3, 12, 13];

#[derive(Clone, Copy)]
pub enum Sort {
    /// About two hundred pages, with or without an end.
    TwoHundred {
        side: Side,
        length: usize,
        ends: bool,
    },
    /// A gathering to its end, some of whose exchanges fail.
    Whole { side: Side, length: usize },
    /// Gatherings of both sides to their ends.
    Both { lengths: Sides<usize> },
    /// A few exchanges, of a sort that the round fixes.
    Few {
        side: Side,
        length: usize,
        round: u64,
    },
}

impl Sort {
    pub fn of(number: u64) -> Self {
        if number < LONG {
            let (side, length) = LONG_LISTS[number as usize / 2];
            let ends = number.is_multiple_of(2);
            return Sort::TwoHundred { side, length, ends };
        }
        let number = number - LONG;
        let length = (number % LENGTHS) as usize;
        match number / LENGTHS {
            PARTNER_ROUND => Sort::Whole {
                side: Side::Partner,
                length,
            },
            CABLE_ROUND => Sort::Whole {
                side: Side::Cable,
                length,
            },
            BOTH_ROUND => Sort::Both {
                lengths: Sides {
                    partner: length / 3,
                    cable: (MOST_SVIDS - length) / 3,
                },
            },
            round => Sort::Few {
                side: Side::BOTH[number as usize % 2],
                length,
                round,
            },
        }
    }

    pub fn lengths(self, random: &mut Random) -> Sides<usize> {
        let (side, length) = match self {
            Sort::Both { lengths } => return lengths,
            Sort::TwoHundred { side, length, .. } => (side, length),
            Sort::Whole { side, length } | Sort::Few { side, length, .. } => (side, length),
        };
        let other = random.one_of(&OTHER_LISTS);
        Sides::each(|each| if each == side { length } else { other })
    }
}
