//! Answers whose wait has ended: with nothing awaited, with a newer request that they fit, and while
//! the other side waits.

use super::{Event, Generator, LinkEvent};
use crate::call::Call;

/// What the dock hears of an answer that is still under way.
pub const HEARD: [Option<LinkEvent>; 3] = [None, Some(LinkEvent::Sent), Some(LinkEvent::Failed)];

impl Generator {
    pub(super) fn late(&mut self) {
        for heard in HEARD {
            for exchanges in 0..3 {
                self.late_with_nothing_awaited(exchanges, heard);
                self.late_with_newer_request(exchanges, heard);
                self.newer_request_first(exchanges, heard);
                self.late_beside(exchanges, heard);
                self.given_beside(exchanges, heard);
            }
        }
    }

    /// So many exchanges from no candidate on.
    pub(super) fn exchanges_anew(&mut self, exchanges: usize) {
        self.finish();
        self.push(Event::Call(Call::Drop(self.side)));
        for _ in 0..exchanges {
            self.exchange();
        }
    }

    pub(super) fn hear(&mut self, heard: Option<LinkEvent>) {
        if let Some(heard) = heard {
            self.happen(heard);
        }
    }

    /// A wait for the answer to Identity, or to a request of the list or of its modes, has ended.
    pub(super) fn wait_has_ended(&mut self, exchanges: usize, heard: Option<LinkEvent>) {
        self.exchanges_anew(exchanges);
        self.answer();
        self.hear(heard);
        self.end_wait();
    }

    pub(super) fn late_with_nothing_awaited(&mut self, exchanges: usize, heard: Option<LinkEvent>) {
        self.wait_has_ended(exchanges, heard);
        self.happen(LinkEvent::AnswerArrives);
        self.happen(LinkEvent::Failed);
        self.exchange();
    }

    /// The late answer is taken, and the newer request is lost.
    pub(super) fn late_with_newer_request(&mut self, exchanges: usize, heard: Option<LinkEvent>) {
        self.wait_has_ended(exchanges, heard);
        self.next();
        self.happen(LinkEvent::AnswerArrives);
        self.happen(LinkEvent::RequestReaches);
        self.happen(LinkEvent::Sent);
        self.exchange();
    }

    /// The newer request reaches the dock before the late answer, which then never arrives; a
    /// confirmed one comes first all the same.
    pub(super) fn newer_request_first(&mut self, exchanges: usize, heard: Option<LinkEvent>) {
        self.wait_has_ended(exchanges, heard);
        self.next();
        self.happen(LinkEvent::RequestReaches);
        self.happen(LinkEvent::AnswerLost);
        self.happen(LinkEvent::AnswerArrives);
        self.happen(LinkEvent::Sent);
        self.finish();
    }
}
