//! Answers that are lost, and pages that stay unconfirmed: once each, and so often that two hundred
//! are counted.

use super::{Generator, LinkEvent};
use crate::laptop::{Candidate, MOST_PAGES};

/// The ways in which a counted page stays unconfirmed.
const WAYS: [[Option<LinkEvent>; 2]; 3] = [
    [Some(LinkEvent::AnswerArrives), Some(LinkEvent::Failed)],
    [Some(LinkEvent::Failed), Some(LinkEvent::AnswerArrives)],
    [Some(LinkEvent::AnswerArrives), None],
];

impl Generator {
    pub(super) fn unconfirmed(&mut self) {
        self.each_answer_lost();
        self.each_page_again();
        self.until(MOST_PAGES);
        let full_pages = self.far_end().last_page();
        self.until(MOST_PAGES - 1 - full_pages);
        self.gather_on();
    }

    /// Each answer is lost once, with or without the dock hearing of it.
    fn each_answer_lost(&mut self) {
        self.open();
        while self.has_candidate() {
            self.answer();
            self.happen(LinkEvent::AnswerLost);
            if self.random.below(2) == 0 {
                self.happen(LinkEvent::Failed);
            }
            self.end_wait();
            self.exchange();
        }
    }

    /// Each page before the last is counted twice.
    fn each_page_again(&mut self) {
        self.open();
        while self.list_is_open() && !self.last_page_is_shown() {
            self.page_unconfirmed();
            self.answer();
            self.finish();
        }
        self.gather_on();
    }

    /// The first page comes until so many are counted, unless it is the last; none is confirmed.
    pub(super) fn until(&mut self, pages: usize) {
        self.open();
        while self.list_is_open()
            && !self.last_page_is_shown()
            && self.system.laptop().page_count(self.side) < pages
        {
            self.page_unconfirmed();
        }
        self.happen(LinkEvent::Failed);
    }

    pub(super) fn page_unconfirmed(&mut self) {
        self.answer();
        let way = self.random.one_of(&WAYS);
        for event in way.into_iter().flatten() {
            self.happen(event);
        }
    }

    pub(super) fn list_is_open(&self) -> bool {
        let candidate = self.system.laptop().candidate(self.side);
        matches!(candidate, Candidate::ListOpen(_))
    }
}
