//! A page after the two hundredth, which has ended the list or was refused 14.

use super::{Event, Generator};
use crate::call::Call;
use crate::header::Header;
use crate::laptop::MOST_PAGES;
use crate::messages::{ACK, IDENTITY, SVIDS};
use crate::pages::{page, PAGE_SVIDS};
use crate::side::Side;

impl Generator {
    /// Of one side the last page ends the list, and of the other it does not.
    pub(super) fn past_two_hundred(&mut self) {
        for side in Side::BOTH {
            let svids = self.random.different_svids(PAGE_SVIDS + 1);
            let repeat = page(&svids, 0).objects;
            let last = match side {
                Side::Partner => page(&svids, 1).objects,
                Side::Cable => repeat.clone(),
            };
            self.push(Event::Call(Call::Next(side)));
            let identity = self.random.objects(3);
            self.acknowledge(side, IDENTITY, &identity);
            for _ in 1..MOST_PAGES {
                self.push(Event::Call(Call::Next(side)));
                self.acknowledge(side, SVIDS, &repeat);
            }
            self.push(Event::Call(Call::Next(side)));
            self.acknowledge(side, SVIDS, &last);
            self.acknowledge(side, SVIDS, &last);
            self.acknowledge(side, SVIDS, &repeat);
            self.push(Event::Call(Call::Drop(side)));
        }
    }

    fn acknowledge(&mut self, side: Side, command: u8, after: &[u32]) {
        let header = Header::usual(command, ACK).of_another_maker(&mut self.random);
        self.push(Event::of_objects(side, &[&[header.word()], after].concat()));
    }
}
