//! Docks of each edition: every request at each, answers at another, and all that leaves a side's
//! edition alone or brings it back to ours.

use super::{Generator, ANSWERS};
use crate::call::Call;
use crate::edition::Edition;
use crate::header::Header;
use crate::messages::{Request, ACK, ATTENTION, BUSY, IDENTITY, MODES, NAK, PD_SID, REQ, SVIDS};

const IDENTITY_REQUEST: Request = Request {
    svid: PD_SID,
    command: IDENTITY,
    position: 0,
};
/// How Identity comes to nothing.
const ENDS: [End; 4] = [
    End::Answer(NAK),
    End::Answer(BUSY),
    End::Call(Call::ResponseTimer),
    End::Call(Call::ProtocolError),
];

#[derive(Clone, Copy)]
enum End {
    Answer(u8),
    Call(Call),
}

impl Generator {
    pub(super) fn editions(&mut self) {
        for edition in Edition::ALL {
            for other in edition.others() {
                self.answers_at_another(edition, other);
                self.late_identity(edition, other);
                self.sides_at(edition, other);
            }
            self.identity_without_ack(edition);
            self.candidate_lost(edition);
            self.refused_at(edition);
        }
    }

    /// Opens an empty list, the dock being of that edition.
    pub(super) fn open_at(&mut self, edition: Edition) {
        self.settle();
        self.next();
        self.docks[self.side] = edition;
        self.answer_at(edition, ACK);
    }

    /// An enter of a held mode, which is sent at the side's edition and comes to nothing.
    pub(super) fn show_edition(&mut self) {
        self.enter_held();
        self.answer_well(BUSY);
    }

    fn enter_held(&mut self) {
        if let Some(&svid) = self.held_svids().first() {
            self.enter(svid, 1);
        }
    }

    /// A good answer to the last request, at that edition.
    fn answer_at(&mut self, edition: Edition, kind: u8) {
        let objects = self.good_objects(self.asked[self.side].command, kind);
        let header = self.at(edition, self.fitting(kind));
        self.message(header, &objects);
    }

    fn at(&mut self, edition: Edition, header: Header) -> Header {
        let header = header.of_another_maker(&mut self.random);
        header.read_as(edition, &mut self.random)
    }

    /// A whole gathering, an enter and an exit, in which every answer but Identity's is at another
    /// edition than the side is.
    fn answers_at_another(&mut self, edition: Edition, other: Edition) {
        self.open_at(edition);
        self.attention_at(other);
        for _ in [SVIDS, MODES] {
            self.next();
            self.answer_at(other, BUSY);
            self.next();
            self.answer_at(other, ACK);
        }
        for kind in [NAK, BUSY, ACK] {
            self.enter_held();
            self.answer_at(other, kind);
        }
        let svid = self.held_svids()[0];
        for kind in [NAK, BUSY, ACK] {
            self.exit(svid, 1);
            self.answer_at(other, kind);
        }
        self.show_edition();
    }

    fn attention_at(&mut self, edition: Edition) {
        let header = self.at(edition, Header::usual(ATTENTION, REQ));
        self.message(header, &[]);
    }

    /// Identity ACKs that come late, at another edition: when none is awaited, and for a newer
    /// Identity, whose own comes after it.
    fn late_identity(&mut self, edition: Edition, other: Edition) {
        self.open_at(edition);
        self.identity_at(other);
        self.next();
        self.identity_at(other);
        self.answer_well(ACK);
        self.settle();
        self.next();
        self.push(Call::ResponseTimer);
        self.identity_at(other);
        self.next();
        self.identity_at(edition);
        self.identity_at(other);
        self.next();
        self.answer_well(ACK);
    }

    fn identity_at(&mut self, edition: Edition) {
        self.asked[self.side] = IDENTITY_REQUEST;
        self.answer_at(edition, ACK);
        if let Some(request) = self.run.laptop().awaited_from(self.side) {
            self.asked[self.side] = request;
        }
    }

    /// The two sides at different editions, each asked after the other.
    fn sides_at(&mut self, edition: Edition, other: Edition) {
        self.open_at(edition);
        self.turn();
        self.open_at(other);
        for _ in [SVIDS, MODES] {
            self.next();
            self.acknowledge();
            self.turn();
            self.next();
            self.acknowledge();
            self.turn();
        }
        self.turn();
    }

    /// After an edition that may be older, Identity goes out and comes to nothing.
    fn identity_without_ack(&mut self, edition: Edition) {
        for end in ENDS {
            self.open_at(edition);
            self.push(Call::Drop(self.side));
            self.show_edition();
            self.next();
            match end {
                End::Answer(kind) => self.answer_at(edition, kind),
                End::Call(call) => {
                    self.push(call);
                }
            }
            self.show_edition();
        }
    }

    /// A bad page, a NAK that voids, and a late page.
    fn candidate_lost(&mut self, edition: Edition) {
        self.open_at(edition);
        self.page(&[0]);
        self.show_edition();
        self.open_at(edition);
        self.page(&[0x0001_0000]);
        self.next();
        self.answer_at(edition, NAK);
        self.show_edition();
        self.open_at(edition);
        self.next();
        self.push(Call::ResponseTimer);
        self.answer_at(edition, ACK);
        self.show_edition();
        self.open_at(edition);
        self.push(Call::StartOver(self.side));
        self.push(Call::ProtocolError);
        self.show_edition();
    }

    /// Calls refused 7, 12 and 13, and messages that are refused.
    fn refused_at(&mut self, edition: Edition) {
        self.open_at(edition);
        self.enter_held();
        self.push(Call::Next(self.side.other()));
        self.next();
        self.push(Call::ProtocolError);
        self.push(Call::Drop(self.side));
        self.enter(0, 1);
        self.unread();
        self.message(Header::usual(SVIDS, ACK), &[]);
        self.enter_held();
        self.answer_at(edition, ACK);
        self.next();
        self.push(Call::StartOver(self.side));
        for kind in ANSWERS {
            self.answer_at(edition, kind);
        }
        self.settle();
        self.show_edition();
    }
}
