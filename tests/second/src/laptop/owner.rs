//! The owner's calls for a side: next, start over, drop, enter and exit. While an answer is awaited
//! from either side, all are refused 7.

use super::side_state::{named_positions, SideState};
use super::{Accepted, Answer, Awaited, Candidate, Laptop, Runs};
use crate::edition::OURS;
use crate::messages::{
    self, Request, ENTER, EXIT, IDENTITY, LAST_POSITION, MODES, OBJECT_BYTES, PD_SID, REQ, SVIDS,
};
use crate::refusals::{ACCEPTED, AWAITING, BLOCKED, NOT_HELD};
use crate::side::Side;

impl Laptop {
    /// Sends the request that the candidate needs next, or refuses with 11 for a short run, then 7,
    /// 13 and 11 for a short buffer.
    pub fn next(&mut self, side: Side, runs: &mut Runs, out: &mut [u8]) -> Answer {
        self.check_call(runs)?;
        self.states[side].check_none_entered()?;
        let (svid, command) = self.states[side].needed_next();
        self.send(side, svid, command, 0, out)
    }

    /// Drops the candidate and sends Identity, or refuses as next does.
    pub fn start_over(&mut self, side: Side, runs: &mut Runs, out: &mut [u8]) -> Answer {
        self.check_call(runs)?;
        self.states[side].check_none_entered()?;
        let answer = self.send(side, PD_SID, IDENTITY, 0, out)?;
        self.states[side].candidate = Candidate::None;
        Ok(answer)
    }

    /// Drops the candidate, or refuses with 11 for a short run, then 7.
    pub fn drop(&mut self, side: Side, runs: &mut Runs) -> Answer {
        self.check_call(runs)?;
        self.states[side].candidate = Candidate::None;
        Ok(Accepted::default())
    }

    /// Sends Enter, or refuses with 11 for a short run, then 7, 13 for a candidate, 12, 13 for an
    /// entered mode and 11 for a short buffer.
    pub fn enter(
        &mut self,
        side: Side,
        svid: u16,
        position: u8,
        runs: &mut Runs,
        out: &mut [u8],
    ) -> Answer {
        self.check_call(runs)?;
        self.states[side].check_enter(svid, position)?;
        self.send(side, svid, ENTER, position, out)
    }

    /// Sends Exit, or refuses with 11 for a short run, then 7, 12, 13 and 11 for a short buffer.
    pub fn exit(
        &mut self,
        side: Side,
        svid: u16,
        position: u8,
        runs: &mut Runs,
        out: &mut [u8],
    ) -> Answer {
        self.check_call(runs)?;
        self.states[side].check_exit(svid, position)?;
        self.send(side, svid, EXIT, position, out)
    }

    fn check_call(&self, runs: &Runs) -> Result<(), u8> {
        runs.check()?;
        if self.awaited.is_some() {
            return Err(AWAITING);
        }
        Ok(())
    }

    /// Writes the request and awaits its answer, or refuses with 11 and stays as it was. Identity
    /// is sent at our edition, all else at the side's.
    fn send(&mut self, side: Side, svid: u16, command: u8, position: u8, out: &mut [u8]) -> Answer {
        let state = &mut self.states[side];
        let edition = match command {
            IDENTITY => OURS,
            _ => state.edition,
        };
        let refusal = messages::write(svid, command, REQ, position, edition.number(), &[], out);
        if refusal != ACCEPTED {
            return Err(refusal);
        }
        state.edition = edition;
        if command == IDENTITY {
            state.page_count = 0;
        }
        let request = Request {
            svid,
            command,
            position,
        };
        self.awaited = Some(Awaited { side, request });
        Ok(Accepted {
            length: OBJECT_BYTES,
            told: None,
        })
    }
}

impl SideState {
    /// The SVID and command that the candidate needs next.
    fn needed_next(&self) -> (u16, u8) {
        let missing = match &self.candidate {
            Candidate::None => None,
            Candidate::ListOpen(_) => Some((PD_SID, SVIDS)),
            Candidate::ListDone(catalogue) => {
                catalogue.first_without_modes().map(|svid| (svid, MODES))
            }
        };
        missing.unwrap_or((PD_SID, IDENTITY))
    }

    fn check_none_entered(&self) -> Result<(), u8> {
        if self.entered.values().any(|&set| set != 0) {
            return Err(BLOCKED);
        }
        Ok(())
    }

    fn check_enter(&self, svid: u16, position: u8) -> Result<(), u8> {
        if self.candidate != Candidate::None {
            return Err(BLOCKED);
        }
        if !self.holds_mode(svid, position) {
            return Err(NOT_HELD);
        }
        if self.entered_set(svid) & named_positions(position) != 0 {
            return Err(BLOCKED);
        }
        Ok(())
    }

    fn check_exit(&self, svid: u16, position: u8) -> Result<(), u8> {
        let is_all = position == LAST_POSITION && self.holds_svid(svid);
        if !is_all && !self.holds_mode(svid, position) {
            return Err(NOT_HELD);
        }
        if self.entered_set(svid) & named_positions(position) == 0 {
            return Err(BLOCKED);
        }
        Ok(())
    }

    fn holds_svid(&self, svid: u16) -> bool {
        self.held.as_ref().is_some_and(|held| held.has_svid(svid))
    }

    fn holds_mode(&self, svid: u16, position: u8) -> bool {
        self.held
            .as_ref()
            .is_some_and(|held| held.has_mode(svid, position))
    }
}
