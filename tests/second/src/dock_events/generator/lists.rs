//! Lists of every length, from page to page: first as the cases of 01, then with losses on the way.

use super::{Event, Generator, POLICY_ANSWERS};
use crate::dock::{PolicyAnswer, LEAST_IDENTITY, MOST_SVIDS};
use crate::header::Header;
use crate::messages::{ENTER, IDENTITY, LAST_COMMAND, MODES, REQ, SVIDS};
use crate::pages::PAGE_SVIDS;

/// The lengths of cases 1 to 8 of 01.
const CASES: [u16; 8] = [0, 3, 4, 10, 11, 12, 13, 72];

impl Generator {
    pub(super) fn cases(&mut self) {
        self.make_ready();
        for length in CASES {
            self.load(LEAST_IDENTITY, (1..=length).collect());
            self.exchange(IDENTITY);
            for _ in 0..self.pages_and_one() {
                self.exchange(SVIDS);
            }
        }
    }

    /// How many pages the list has, the NAK to an empty one included, and once more.
    fn pages_and_one(&self) -> usize {
        self.run.dock().svid_count() / PAGE_SVIDS + 2
    }

    /// A request with our version, given and confirmed.
    fn exchange(&mut self, command: u8) {
        self.push(Event::Objects {
            objects: vec![Header::usual(command, REQ).word()],
        });
        self.give();
        self.sent();
    }

    pub(super) fn lists(&mut self) {
        for length in 0..=MOST_SVIDS {
            self.make_ready();
            self.load_list(length);
            self.identify();
            for _ in 0..=self.pages_and_one() {
                self.detour();
                self.turn_page();
            }
            self.restart();
            self.turn_page();
        }
    }

    /// A sequence that leaves the page where it is, or none.
    fn detour(&mut self) {
        match self.random.below(8) {
            0 => self.show_page(),
            1 => {
                self.ask(SVIDS);
                self.give();
                self.replace();
            }
            2 => {
                self.ask(SVIDS);
                self.replace();
            }
            3 => {
                let refused = [PolicyAnswer::Nak, PolicyAnswer::Busy];
                let answer = self.random.one_of(&refused);
                self.ask(SVIDS);
                self.answer_well(answer);
                self.sent();
            }
            4 => {
                self.ask(ENTER);
                self.give();
                self.sent();
                self.sent();
            }
            _ => (),
        }
    }

    /// Another request takes the place of the last; what is confirmed then is not a page.
    fn replace(&mut self) {
        let command = self.random.one_of(&[SVIDS, MODES, LAST_COMMAND]);
        self.ask(command);
        if command != SVIDS {
            self.sent();
        }
    }

    /// Identity at any moment, which opens the list again whatever becomes of its answer.
    fn restart(&mut self) {
        if self.random.below(2) == 0 {
            self.ask(SVIDS);
        }
        if self.random.below(2) == 0 {
            self.give();
        }
        self.ask(IDENTITY);
        if self.random.below(2) == 0 {
            let answer = self.random.one_of(&POLICY_ANSWERS);
            self.answer_well(answer);
            self.sent_or_failed();
        }
    }
}
