//! What comes of the other side in between: it ends no wait of the side whose turn it is, and leaves
//! none of its own.

use super::{Generator, ANSWERS};
use crate::call::Call;
use crate::header::Header;
use crate::messages::{ATTENTION, REQ};

impl Generator {
    /// An event of the other side, or an exchange with it.
    pub(super) fn meanwhile(&mut self) {
        let interleaves = std::mem::replace(&mut self.interleaves, false);
        self.side = self.side.other();
        match self.run.laptop().awaited() {
            Some(_) => self.beside_a_wait(),
            None => self.between_waits(),
        }
        self.side = self.side.other();
        self.interleaves = interleaves;
    }

    /// The other side waits: a call is refused 7 and an answer 6, late or such as the other awaits.
    fn beside_a_wait(&mut self) {
        let kind = self.random.one_of(&ANSWERS);
        match self.random.below(5) {
            0 => {
                self.next();
            }
            1 => self.drawn_mode(),
            2 => {
                self.answer_well(kind);
            }
            3 => {
                self.answer_to(self.asked[self.side.other()], kind);
            }
            _ => self.attention(),
        }
    }

    /// Nothing is awaited: a late answer, Attention, or an exchange from its call to its end.
    fn between_waits(&mut self) {
        match self.random.below(8) {
            0 => self.drawn_answer(),
            1 => self.attention(),
            _ => {
                self.go_on();
                if self.run.laptop().awaited().is_some() {
                    self.end_exchange();
                }
            }
        }
    }

    fn end_exchange(&mut self) {
        match self.random.below(8) {
            0 => {
                self.push(Call::timer(self.asked[self.side].command));
            }
            1 => {
                self.push(Call::ProtocolError);
            }
            _ => self.go_on(),
        }
    }

    fn attention(&mut self) {
        let header = Header::usual(ATTENTION, REQ).of_another_maker(&mut self.random);
        let count = self.random.below(2);
        let objects = self.random.objects(count);
        self.message(header, &objects);
    }
}
