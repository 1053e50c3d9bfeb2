//! One side waits, and the other, in every sort of candidate, gets calls, answers and pages; and
//! modes entered of one side while the other is asked.

use super::situation::{all_calls, Situation, FIRST, IDLE, WAITING};
use super::{Generator, ANSWERS};
use crate::call::Call;
use crate::header::Header;
use crate::messages::{ACK, MOST_AFTER_HEADER, SVIDS};
use crate::pages::page;
use crate::side::Side;

impl Generator {
    pub(super) fn both_sides(&mut self) {
        for side in Side::BOTH {
            for situation in WAITING {
                let idle = self.random.one_of(&IDLE);
                self.while_other_waits(side, idle, situation);
                self.while_other_waits(side, Situation::PageGathered, situation);
            }
            self.late_first_page(side);
            self.asked_while_other_is_entered(side);
            self.entered_while_other_gathers(side);
        }
    }

    /// Calls, answers that the other side awaits, and messages of every length reach this side.
    fn while_other_waits(&mut self, side: Side, idle: Situation, others: Situation) {
        self.set_up_of(side, idle);
        self.set_up_of(side.other(), others);
        let awaited = self.asked[side.other()];
        self.unread();
        self.side = side;
        self.unread();
        for event in all_calls(side) {
            if event.side().is_some() && self.random.below(4) == 0 {
                self.push(event);
            }
        }
        for kind in ANSWERS {
            self.answer_to(awaited, kind);
        }
        for count in 0..=MOST_AFTER_HEADER {
            let event = self.drawn_message(Header::usual(SVIDS, ACK), count);
            self.push(event);
        }
        self.push(Call::timer(awaited.command));
        self.next();
        self.push(Call::ProtocolError);
    }

    /// A page that is not structured, and one of a version that is not read.
    pub(super) fn unread(&mut self) {
        let page = Header::usual(SVIDS, ACK);
        self.message(
            Header {
                structured: false,
                ..page
            },
            &[0x0001_0000],
        );
        self.message(Header { major: 2, ..page }, &[0x0001_0000]);
    }

    /// The first page of 13 SVIDs comes late while the other side waits, and then the second.
    fn late_first_page(&mut self, side: Side) {
        let thirteen: Vec<u16> = (1..=13).collect();
        self.set_up_of(side, Situation::ListOpen);
        self.next();
        self.push(Call::ResponseTimer);
        self.set_up_of(side.other(), Situation::AwaitsIdentity);
        self.side = side;
        self.answer(ACK, &page(&thirteen, 0).objects);
        self.push(Call::ProtocolError);
        self.next();
        self.answer(ACK, &page(&thirteen, 1).objects);
    }

    /// Entered modes block discovery on their own side only.
    fn asked_while_other_is_entered(&mut self, side: Side) {
        self.set_up_of(side.other(), Situation::Entered);
        self.next();
        self.set_up_of(side, Situation::AwaitsFirstPage);
        self.acknowledge();
        self.push(Call::StartOver(side));
        self.acknowledge();
    }

    /// A candidate blocks enter on its own side only, whether its list is open or done.
    fn entered_while_other_gathers(&mut self, side: Side) {
        for others in [Situation::PageGathered, Situation::ModesBegun] {
            self.set_up_of(side.other(), others);
            self.enter(FIRST, 1);
            self.set_up_of(side, Situation::AwaitsLastModes);
            self.acknowledge();
            self.set_up_of(side, Situation::AwaitsEnter);
            self.acknowledge();
        }
    }

    fn set_up_of(&mut self, side: Side, situation: Situation) {
        self.side = side;
        self.set_up(situation);
    }
}
