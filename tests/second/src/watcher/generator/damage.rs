//! Answers that would fit but for a fault in the header or the wrong number of objects.

use super::situation::{Situation, WAITING};
use super::{Event, Generator, ANSWERS};
use crate::header::{samples, Header};
use crate::messages::{ACK, MOST_AFTER_HEADER, SVIDS};

impl Generator {
    pub(super) fn damage(&mut self) {
        for situation in WAITING {
            self.turn();
            self.set_up(situation);
            let kind = self.random.one_of(&ANSWERS);
            let count = self.random.below(MOST_AFTER_HEADER + 1);
            let faults = self.fitting(kind).with_faults();
            let mut events: Vec<Event> = faults
                .into_iter()
                .map(|header| self.drawn_message(header, count))
                .collect();
            for kind in ANSWERS {
                let header = self.fitting(kind).of_another_maker(&mut self.random);
                let counts = 0..=MOST_AFTER_HEADER;
                events.extend(counts.map(|count| self.drawn_message(header, count)));
            }
            self.everything_in(situation, &events);
        }
        self.late_damage();
    }

    /// Pages with faults while the list is open and nothing is awaited, and samples of every row.
    fn late_damage(&mut self) {
        let page = Header::usual(SVIDS, ACK);
        let headers = page.with_faults().into_iter().map(|header| (header, 1));
        let events: Vec<Event> = headers
            .chain(samples())
            .map(|(header, count)| self.drawn_message(header, count))
            .collect();
        self.everything_in(Situation::PageGathered, &events);
    }
}
