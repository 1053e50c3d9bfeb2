//! Names for what events do to a laptop end of two sides (02, R-4), to be counted.

use crate::call::Call;
use crate::laptop::{Candidate, Laptop, Reason, Told};
use crate::messages::{read, Message, ACK, REQ, SVIDS};
use crate::refusals::{ACCEPTED, AWAITING, NOT_AWAITED, SHORT_RUN};
use crate::side::Side;

const BOTH_HOLD: &str = "event with a catalogue held of both sides";
/// What policy can be told.
const TOLD: [&str; 5] = ["Attention", "NAK", "BUSY", "timer", "protocol error"];

/// One event of a laptop: how it stood before, what the event led to, and how it stands after.
pub struct Step<'laptop> {
    pub before: &'laptop Laptop,
    pub refusal: u8,
    pub told: Option<Told>,
    pub after: &'laptop Laptop,
}

/// Every name, each side's after the other; but a short run is lent by some streams only.
pub fn names() -> Vec<String> {
    let of_sides = Side::BOTH.into_iter().flat_map(names_of);
    of_sides.chain([BOTH_HOLD.to_string()]).collect()
}

/// The names of calls refused for a short run, by side.
pub fn short_run_names() -> Vec<String> {
    Side::BOTH.map(short_run).to_vec()
}

fn names_of(side: Side) -> Vec<String> {
    let mut names = vec![
        refused_for_other(side),
        answer_for_other(side),
        late_page(side),
        wait_ended(side, "timer"),
        wait_ended(side, "protocol error"),
        asked_beside_modes(side),
        entered_beside_candidate(side),
        published_beside(side, "open"),
        published_beside(side, "done"),
    ];
    names.extend(TOLD.map(|what| told(side, what)));
    names
}

impl Step<'_> {
    pub fn of_message(&self, side: Side, bytes: &[u8]) -> Vec<String> {
        let mut names = self.of_any();
        let answer = read(bytes).ok().filter(|message| message.kind != REQ);
        if let Some(answer) = answer.filter(|_| self.refusal == NOT_AWAITED) {
            names.extend(self.of_refused_answer(side, &answer));
        }
        names.extend(self.publishing(side));
        names
    }

    /// An answer refused 6, while the other side waits.
    fn of_refused_answer(&self, side: Side, answer: &Message) -> Vec<String> {
        let Some(awaited) = self.before.awaited_from(side.other()) else {
            return Vec::new();
        };
        let fits_other = awaited == answer.request();
        let is_page = (answer.command, answer.kind) == (SVIDS, ACK);
        let drops = is_page && is_open(self.before, side) && !is_open(self.after, side);
        let fitting = fits_other.then(|| answer_for_other(side));
        let dropping = drops.then(|| late_page(side));
        fitting.into_iter().chain(dropping).collect()
    }

    pub fn of_call(&self, call: Call) -> Vec<String> {
        let mut names = self.of_any();
        match call.side() {
            Some(side) => names.extend(self.of_owners_call(call, side)),
            None => names.extend(self.of_wait_ended(call)),
        }
        names
    }

    fn of_owners_call(&self, call: Call, side: Side) -> Option<String> {
        let other_waits = self.before.awaited_from(side.other()).is_some();
        match (self.refusal, call) {
            (AWAITING, _) if other_waits => Some(refused_for_other(side)),
            (SHORT_RUN, _) if other_waits => Some(short_run(side)),
            (ACCEPTED, Call::Next(_)) if has_entered(self.before, side.other()) => {
                Some(asked_beside_modes(side))
            }
            (ACCEPTED, Call::Enter { .. }) if has_candidate(self.before, side.other()) => {
                Some(entered_beside_candidate(side))
            }
            _ => None,
        }
    }

    /// A timer or a protocol error, of the side that waited.
    fn of_wait_ended(&self, call: Call) -> Option<String> {
        let awaited = self.before.awaited().filter(|_| self.refusal == ACCEPTED)?;
        Some(match call {
            Call::ProtocolError => wait_ended(awaited.side, "protocol error"),
            _ => wait_ended(awaited.side, "timer"),
        })
    }

    fn of_any(&self) -> Vec<String> {
        let both_hold = Side::BOTH
            .iter()
            .all(|&side| self.after.held(side).is_some());
        let mut names = Vec::from_iter(both_hold.then(|| BOTH_HOLD.to_string()));
        names.extend(self.told.map(|told| match told {
            Told::Attention { side, .. } => self::told(side, "Attention"),
            Told::Unmarked { side, reason, .. } => self::told(side, word_of(reason)),
        }));
        names
    }

    fn publishing(&self, side: Side) -> Option<String> {
        if self.before.held(side) == self.after.held(side) {
            return None;
        }
        match self.before.candidate(side.other()) {
            Candidate::None => None,
            Candidate::ListOpen(_) => Some(published_beside(side, "open")),
            Candidate::ListDone(_) => Some(published_beside(side, "done")),
        }
    }
}

fn is_open(laptop: &Laptop, side: Side) -> bool {
    matches!(laptop.candidate(side), Candidate::ListOpen(_))
}

fn has_candidate(laptop: &Laptop, side: Side) -> bool {
    *laptop.candidate(side) != Candidate::None
}

fn has_entered(laptop: &Laptop, side: Side) -> bool {
    let held = laptop.held(side).map(|held| held.svids.iter());
    held.is_some_and(|mut svids| svids.any(|&svid| laptop.entered_count(side, svid) > 0))
}

fn word_of(reason: Reason) -> &'static str {
    match reason {
        Reason::Nak => TOLD[1],
        Reason::Busy => TOLD[2],
        Reason::Timer => TOLD[3],
        Reason::ProtocolError => TOLD[4],
    }
}

fn refused_for_other(side: Side) -> String {
    format!(
        "call for the {side} refused 7 as the {} waits",
        side.other()
    )
}

fn short_run(side: Side) -> String {
    format!(
        "call for the {side} refused 11 while the {} waits",
        side.other()
    )
}

fn answer_for_other(side: Side) -> String {
    format!(
        "answer from the {side} refused 6 that the {} awaits",
        side.other()
    )
}

fn late_page(side: Side) -> String {
    format!(
        "late page drops the list of the {side} while the {} waits",
        side.other()
    )
}

fn wait_ended(side: Side, end: &str) -> String {
    format!("{end} accepted for the {side}")
}

fn asked_beside_modes(side: Side) -> String {
    format!(
        "next for the {side} accepted with modes entered of the {}",
        side.other()
    )
}

fn entered_beside_candidate(side: Side) -> String {
    format!(
        "enter for the {side} accepted with a candidate of the {}",
        side.other()
    )
}

fn published_beside(side: Side, list: &str) -> String {
    format!(
        "catalogue of the {side} published with the list of the {} {list}",
        side.other()
    )
}

fn told(side: Side, what: &str) -> String {
    format!("{what} told of the {side}")
}
