//! The two runs of mode words that a side's calls are lent.

use crate::laptop::Runs;

#[derive(Clone, Debug, PartialEq, Eq)]
pub struct LentRuns {
    pub held: Vec<u32>,
    pub candidate: Vec<u32>,
}

impl LentRuns {
    /// Both of so many words, each of them this one.
    pub fn of(word: u32, words: usize) -> Self {
        LentRuns {
            held: vec![word; words],
            candidate: vec![word; words],
        }
    }

    /// Both whole.
    pub fn whole(&mut self) -> Runs<'_> {
        Runs {
            held: &mut self.held,
            candidate: &mut self.candidate,
        }
    }
}
