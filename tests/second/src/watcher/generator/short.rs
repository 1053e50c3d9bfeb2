//! Short streams, each from a fresh laptop: whole lists, about two hundred pages, and a few events
//! of every sort.

use super::bad_pages::objects;
use super::lists::side_of_list;
use super::situation::{all_calls, IDLE, TIMERS, WAITING};
use super::two_hundred::LASTS;
use super::{Generator, ANSWERS};
use crate::call::Call;
use crate::messages::{ACK, LAST_POSITION, MOST_AFTER_HEADER};
use crate::pages::{page, MOST_SVIDS, PAGE_SVIDS};
use crate::side::Side;

/// Streams of every length of a list come first, then those of about two hundred pages.
const LISTS: usize = MOST_SVIDS + 1;
const LONG: usize = LISTS + LASTS + 1;
const SORTS: usize = 6;

impl Generator {
    pub(super) fn short(&mut self, number: u64) {
        let number = number as usize;
        self.interleaves = true;
        if number < LISTS {
            self.side = side_of_list(number, 0);
            return self.whole_list(number);
        }
        self.side = self.random.one_of(&Side::BOTH);
        self.interleaves = self.random.below(2) == 0;
        if number < LONG {
            return self.about_two_hundred(number - LISTS);
        }
        match number % SORTS {
            0 => self.few_events(),
            1 => self.late_answer(),
            2 => self.strange_page(),
            3 => self.few_modes(),
            4 => self.few_faults(),
            _ => self.few_steps(),
        }
    }

    /// Calls and messages of every sort in a situation, whatever they lead to.
    fn few_events(&mut self) {
        let situations = [&IDLE[..], &WAITING].concat();
        let situation = self.random.one_of(&situations);
        let events = [
            all_calls(self.side),
            all_calls(self.side.other()),
            self.all_messages(),
        ]
        .concat();
        self.set_up(situation);
        for _ in 0..self.random.below(7) + 2 {
            let event = events[self.random.below(events.len())].clone();
            self.push(event);
        }
        self.next();
    }

    /// A wait ends, mostly by its timer or a protocol error, and its answer comes: before the next
    /// request, while the other side waits or not, or after it, with its own answer behind it.
    fn late_answer(&mut self) {
        let situation = self.random.one_of(&WAITING);
        self.set_up(situation);
        let timer = Call::timer(self.asked[self.side].command);
        let drawn = self.random.one_of(&TIMERS);
        let end = self.random.one_of(&[timer, Call::ProtocolError, drawn]);
        self.push(end);
        let kind = self.random.one_of(&ANSWERS);
        match self.random.below(3) {
            0 => {
                self.answer_well(kind);
            }
            1 => self.late_while_other_waits(),
            _ => {}
        }
        self.next();
        self.answer_well(kind);
        self.acknowledge();
        self.next();
    }

    fn late_while_other_waits(&mut self) {
        self.push(Call::Next(self.side.other()));
        self.acknowledge();
        self.push(Call::ProtocolError);
    }

    /// A page with zeros, one that repeats SVIDs, or one that may take the total past 72.
    fn strange_page(&mut self) {
        match self.random.below(3) {
            0 => {
                let pages = self.random.below(2);
                let halves = 2 + 2 * self.random.below(MOST_AFTER_HEADER);
                let first = self.random.below(halves);
                let end = self.random.one_of(&[first, first + 1, halves]);
                self.page_with_zeros(pages, halves, first..end);
            }
            1 => {
                let svids = self.random.different_svids(2 * PAGE_SVIDS);
                let first = self.random.below(PAGE_SVIDS + 1);
                self.gather(&svids, 2);
                self.page(&objects(&svids[first..first + PAGE_SVIDS]));
            }
            _ => {
                let svids = self.random.different_svids(MOST_SVIDS + PAGE_SVIDS);
                let pages = 5 + self.random.below(2);
                let rest = self.random.below(PAGE_SVIDS + 1);
                self.gather(&svids, pages);
                self.page(&page(&svids[pages * PAGE_SVIDS..][..rest], 0).objects);
            }
        }
        self.next();
    }

    /// Enters and exits of held modes, which are mostly answered.
    fn few_modes(&mut self) {
        let count = 1 + self.random.below(2);
        let svids = self.random.different_svids(count);
        let modes: Vec<(u16, usize)> = svids
            .iter()
            .map(|&svid| (svid, 1 + self.random.below(MOST_AFTER_HEADER)))
            .collect();
        self.hold(&modes);
        for _ in 0..self.random.below(4) + 2 {
            self.drawn_mode();
            match self.random.below(6) {
                0 => self.drawn_timer(),
                _ => self.go_on(),
            }
        }
        self.exit(svids[0], LAST_POSITION);
        self.acknowledge();
    }

    /// Answers with faults, and then one that fits.
    fn few_faults(&mut self) {
        let situation = self.random.one_of(&WAITING);
        self.set_up(situation);
        for _ in 0..self.random.below(7) + 2 {
            let kind = self.random.one_of(&ANSWERS);
            let headers = self.fitting(kind).with_faults();
            let header = self.random.one_of(&headers);
            let count = self.random.below(MOST_AFTER_HEADER + 1);
            let event = self.drawn_message(header, count);
            self.push(event);
        }
        self.answer_well(ACK);
        self.next();
    }

    fn few_steps(&mut self) {
        for _ in 0..self.random.below(20) + 5 {
            self.drawn_step();
        }
    }
}
