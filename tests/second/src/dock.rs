//! The dock end (01, "The dock end"; 02, R-5): it asks policy about each request, then sends the answer.

use crate::edition::{Edition, OURS};
use crate::messages::{
    self, ACK, ATTENTION, BUSY, ENTER, EXIT, IDENTITY, MODES, MOST_AFTER_HEADER, NAK, OBJECT_BYTES,
    REQ, SVIDS,
};
use crate::pages::{is_list, page};
use crate::refusals::{ACCEPTED, BROKEN_LIMITS, NOT_AWAITED, NOT_TAKEN_NOW};

pub use crate::messages::Request;
pub use crate::pages::MOST_SVIDS;

pub const LEAST_IDENTITY: usize = 3;
pub const MOST_IDENTITY: usize = 6;

#[derive(Clone, Debug, PartialEq, Eq)]
pub struct Dock {
    /// Empty as long as nothing is loaded.
    identity: Vec<u32>,
    svids: Vec<u16>,
    page: usize,
    /// The highest edition that this dock speaks.
    highest: Edition,
    /// The edition at which it answers.
    edition: Edition,
    standing: Standing,
}

#[derive(Clone, Copy, Debug, PartialEq, Eq)]
pub enum Standing {
    Ready,
    /// Policy has been asked about this request.
    Asking(Request),
    /// An answer is on its way; only one that is a page before the last moves the page.
    Sending {
        moves_page: bool,
    },
}

#[derive(Clone, Copy, Debug, PartialEq, Eq)]
pub enum PolicyAnswer {
    Give,
    Nak,
    Busy,
}

/// The part of an answer that does not repeat the request.
struct Reply {
    kind: u8,
    objects: Vec<u32>,
    moves_page: bool,
}

impl Reply {
    /// A reply on which the page stays.
    fn new(kind: u8, objects: &[u32]) -> Self {
        Reply {
            kind,
            objects: objects.to_vec(),
            moves_page: false,
        }
    }
}

impl Dock {
    /// Our dock, ready and with nothing loaded.
    pub fn fresh() -> Self {
        Dock::of_highest(OURS)
    }

    /// Such a dock, but for the highest edition that it speaks.
    pub fn of_highest(highest: Edition) -> Self {
        Dock {
            identity: Vec::new(),
            svids: Vec::new(),
            page: 0,
            highest,
            edition: highest,
            standing: Standing::Ready,
        }
    }

    pub fn standing(&self) -> Standing {
        self.standing
    }

    pub fn page(&self) -> usize {
        self.page
    }

    /// The edition at which the dock answers.
    pub fn edition(&self) -> Edition {
        self.edition
    }

    pub fn identity_count(&self) -> usize {
        self.identity.len()
    }

    pub fn svid_count(&self) -> usize {
        self.svids.len()
    }

    /// Takes new data, or refuses with 9, then 10.
    pub fn load(&mut self, identity: &[u32], svids: &[u16]) -> Result<(), u8> {
        if self.standing != Standing::Ready {
            return Err(NOT_TAKEN_NOW);
        }
        if !is_identity(identity) || !is_list(svids) {
            return Err(BROKEN_LIMITS);
        }
        self.identity = identity.to_vec();
        self.svids = svids.to_vec();
        self.page = 0;
        Ok(())
    }

    /// Takes a message, or refuses with 1 to 5, then 6, then 11. Gives the number of bytes to send
    /// from `out`, which is 0 when policy is asked.
    pub fn message(&mut self, bytes: &[u8], out: &mut [u8]) -> Result<usize, u8> {
        let message = messages::read(bytes)?;
        if message.kind != REQ || message.command == ATTENTION {
            return Err(NOT_AWAITED);
        }
        let request = message.request();
        let edition = message.edition.lower(self.highest);
        if !(IDENTITY..=EXIT).contains(&request.command) {
            return self.send(request, edition, &Reply::new(NAK, &[]), out);
        }
        if request.command == IDENTITY {
            self.page = 0;
        }
        self.edition = edition;
        self.standing = Standing::Asking(request);
        Ok(0)
    }

    /// Takes policy's answer to `request`, or refuses with 9, then 10, then 11. Gives the number of
    /// bytes to send from `out`.
    pub fn policy(
        &mut self,
        answer: PolicyAnswer,
        request: Request,
        objects: &[u32],
        out: &mut [u8],
    ) -> Result<usize, u8> {
        if self.standing != Standing::Asking(request) {
            return Err(NOT_TAKEN_NOW);
        }
        let reply = match answer {
            PolicyAnswer::Give => self.given(request.command, objects)?,
            _ if !objects.is_empty() => return Err(BROKEN_LIMITS),
            PolicyAnswer::Nak => Reply::new(NAK, &[]),
            PolicyAnswer::Busy => Reply::new(BUSY, &[]),
        };
        self.send(request, self.edition, &reply, out)
    }

    /// The answer being sent has been confirmed; 9 if there is none.
    pub fn sent(&mut self) -> Result<(), u8> {
        let Standing::Sending { moves_page } = self.standing else {
            return Err(NOT_TAKEN_NOW);
        };
        self.page += usize::from(moves_page);
        self.standing = Standing::Ready;
        Ok(())
    }

    /// The answer being sent stays unconfirmed; 9 if there is none.
    pub fn failed(&mut self) -> Result<(), u8> {
        let Standing::Sending { .. } = self.standing else {
            return Err(NOT_TAKEN_NOW);
        };
        self.standing = Standing::Ready;
        Ok(())
    }

    /// What Give leads to, or 10.
    fn given(&self, command: u8, objects: &[u32]) -> Result<Reply, u8> {
        match (command, objects.len()) {
            (IDENTITY, 0) if !self.identity.is_empty() => Ok(Reply::new(ACK, &self.identity)),
            (SVIDS, 0) => Ok(self.list_reply()),
            (MODES, 1..=MOST_AFTER_HEADER) => Ok(Reply::new(ACK, objects)),
            (ENTER | EXIT, 0) => Ok(Reply::new(ACK, &[])),
            _ => Err(BROKEN_LIMITS),
        }
    }

    fn list_reply(&self) -> Reply {
        if self.svids.is_empty() {
            return Reply::new(NAK, &[]);
        }
        let page = page(&self.svids, self.page);
        Reply {
            kind: ACK,
            objects: page.objects,
            moves_page: !page.ends_list,
        }
    }

    /// Writes the answer at the edition and waits for its end, or refuses with 11 and stays as it
    /// was.
    fn send(
        &mut self,
        request: Request,
        edition: Edition,
        reply: &Reply,
        out: &mut [u8],
    ) -> Result<usize, u8> {
        let refusal = messages::write(
            request.svid,
            request.command,
            reply.kind,
            request.position,
            edition.number(),
            &reply.objects,
            out,
        );
        if refusal != ACCEPTED {
            return Err(refusal);
        }
        self.edition = edition;
        self.standing = Standing::Sending {
            moves_page: reply.moves_page,
        };
        Ok((1 + reply.objects.len()) * OBJECT_BYTES)
    }
}

fn is_identity(identity: &[u32]) -> bool {
    (LEAST_IDENTITY..=MOST_IDENTITY).contains(&identity.len())
}
