//! The messages that reach the laptop end: the awaited answers, and Attention.

use super::side_state::{named_positions, SideState};
use super::{Accepted, Answer, Candidate, Laptop, Reason, Runs, Told, MOST_PAGES};
use crate::catalogue::Catalogue;
use crate::edition::OURS;
use crate::messages::{self, Message, ACK, ATTENTION, ENTER, IDENTITY, MODES, NAK, REQ, SVIDS};
use crate::pages::{take_page, Taken};
use crate::refusals::{NOT_AWAITED, NO_END, VOIDED};
use crate::side::Side;
use std::mem;

impl Laptop {
    /// Takes a message from a side, whatever the other awaits, or refuses with 11 for a short run,
    /// then 1 to 5, then 6, 8, 14.
    pub fn message(&mut self, side: Side, bytes: &[u8], runs: &mut Runs) -> Answer {
        runs.check()?;
        let message = messages::read(bytes)?;
        if message.command == ATTENTION {
            return Ok(Accepted::telling(Told::Attention { side, message }));
        }
        let awaited = self.awaited_from(side);
        if message.kind == REQ || awaited != Some(message.request()) {
            if awaited.is_none() {
                self.states[side].drop_on_late_page(&message);
            }
            return Err(NOT_AWAITED);
        }
        self.awaited = None;
        let unmarked = self.states[side].take_answer(&message, runs)?;
        let told = unmarked.map(|reason| Told::Unmarked {
            side,
            request: message.request(),
            reason,
        });
        Ok(Accepted { length: 0, told })
    }
}

impl SideState {
    /// A page that comes while the list is open and nothing is awaited from the side may have been
    /// confirmed.
    fn drop_on_late_page(&mut self, message: &Message) {
        let is_page = message.command == SVIDS && message.kind == ACK;
        if is_page && matches!(self.candidate, Candidate::ListOpen(_)) {
            self.candidate = Candidate::None;
        }
    }

    /// Gives why an enter or exit came to nothing, if it did. Each answer about the catalogue says
    /// what candidate it leaves; a refusal leaves none.
    fn take_answer(&mut self, message: &Message, runs: &mut Runs) -> Result<Option<Reason>, u8> {
        self.candidate = match (message.command, mem::take(&mut self.candidate)) {
            (IDENTITY, _) => self.identity_answer(message),
            (SVIDS, Candidate::ListOpen(gathered)) => self.list_answer(gathered, message, runs)?,
            (MODES, Candidate::ListDone(gathered)) => self.modes_answer(gathered, message, runs)?,
            (_, candidate) => {
                self.candidate = candidate;
                return Ok(self.mark_answer(message));
            }
        };
        Ok(None)
    }

    /// After an ACK the side's edition is the lower of that answer's and ours.
    fn identity_answer(&mut self, message: &Message) -> Candidate {
        match message.kind {
            ACK => {
                self.edition = message.edition.lower(OURS);
                Candidate::ListOpen(Catalogue::of_identity(message.objects.as_slice()))
            }
            _ => Candidate::None,
        }
    }

    fn list_answer(
        &mut self,
        gathered: Catalogue,
        message: &Message,
        runs: &mut Runs,
    ) -> Result<Candidate, u8> {
        match message.kind {
            ACK => self.page_answer(gathered, message.objects.as_slice()),
            NAK if gathered.svids.is_empty() => Ok(self.publish(gathered, runs)),
            NAK => Err(VOIDED),
            _ => Ok(Candidate::ListOpen(gathered)),
        }
    }

    fn page_answer(&mut self, gathered: Catalogue, objects: &[u32]) -> Result<Candidate, u8> {
        self.page_count += 1;
        match take_page(&gathered.svids, objects) {
            Taken::Bad => Err(VOIDED),
            Taken::Ends(svids) => Ok(Candidate::ListDone(Catalogue { svids, ..gathered })),
            _ if self.page_count >= MOST_PAGES => Err(NO_END),
            Taken::More(svids) => Ok(Candidate::ListOpen(Catalogue { svids, ..gathered })),
            Taken::Repeat => Ok(Candidate::ListOpen(gathered)),
        }
    }

    fn modes_answer(
        &mut self,
        mut gathered: Catalogue,
        message: &Message,
        runs: &mut Runs,
    ) -> Result<Candidate, u8> {
        match message.kind {
            ACK => gathered.store_modes(message.objects.as_slice(), runs.candidate),
            NAK => return Err(VOIDED),
            _ => return Ok(Candidate::ListDone(gathered)),
        }
        match gathered.first_without_modes() {
            Some(_) => Ok(Candidate::ListDone(gathered)),
            None => Ok(self.publish(gathered, runs)),
        }
    }

    /// Holds the catalogue and leaves no candidate. No mode is entered while there is one.
    fn publish(&mut self, catalogue: Catalogue, runs: &mut Runs) -> Candidate {
        catalogue.copy_modes(runs.candidate, runs.held);
        self.held = Some(catalogue);
        Candidate::None
    }

    fn mark_answer(&mut self, message: &Message) -> Option<Reason> {
        match message.kind {
            ACK => {
                let positions = named_positions(message.position);
                let set = self.entered.entry(message.svid).or_default();
                match message.command {
                    ENTER => *set |= positions,
                    _ => *set &= !positions,
                }
                None
            }
            NAK => Some(Reason::Nak),
            _ => Some(Reason::Busy),
        }
    }
}
