//! The dock's calls.

use super::{refused, sends, Line, Out, Words, MOST_ROOM, UNWRITTEN};
use crate::dock::{Dock, PolicyAnswer, Request, Standing};

/// The dock, and what its calls hand over in.
#[derive(Clone)]
pub struct DockEnd {
    dock: Dock,
    out: Out,
    length: usize,
}

impl DockEnd {
    pub fn fresh() -> Self {
        DockEnd {
            dock: Dock::fresh(),
            out: [UNWRITTEN; MOST_ROOM],
            length: usize::from(UNWRITTEN),
        }
    }

    pub fn take(&mut self, name: &str, words: &mut Words, room: usize) -> Line {
        if name == "dock_fresh" {
            *self = Self::fresh();
            return Ok(format!("made, {}", self.state()));
        }
        let dock = self.dock.clone();
        *self = DockEnd {
            dock,
            ..Self::fresh()
        };
        let before = self.clone();
        let answer = self.call(name, words, room)?;
        Ok(match answer {
            Ok(length) => {
                self.length = length;
                let sent = sends(&self.out, length);
                format!("accepted, length {length}, {sent}, {}", self.state())
            }
            Err(refusal) => format!("{}, {}", self.refused(refusal, &before), self.state()),
        })
    }

    fn call(
        &mut self,
        name: &str,
        words: &mut Words,
        room: usize,
    ) -> Result<Result<usize, u8>, String> {
        let DockEnd { dock, out, .. } = self;
        let out = &mut out[..room];
        Ok(match name {
            "dock_load" => dock.load(&words.hexes()?, &words.hexes()?).map(|()| 0),
            "dock_message" => dock.message(&words.bytes()?, out),
            "dock_policy_answer" => {
                let (answer, request) = (policy_answer(words)?, request(words)?);
                dock.policy(answer, request, &words.hexes()?, out)
            }
            "dock_sent" => dock.sent().map(|()| 0),
            "dock_failed" => dock.failed().map(|()| 0),
            _ => return Err(format!("an unknown step: {name}")),
        })
    }

    fn refused(&self, refusal: u8, before: &Self) -> String {
        let parts = [
            ("dock_state", self.dock != before.dock),
            ("dock_out", self.out != before.out),
            ("dock_length", self.length != before.length),
        ];
        refused(refusal, &parts)
    }

    fn state(&self) -> String {
        let standing = match self.dock.standing() {
            Standing::Ready => "ready".to_string(),
            Standing::Asking(request) => format!(
                "asking {:04X} {} {}",
                request.svid, request.command, request.position
            ),
            Standing::Sending { .. } => "sending".to_string(),
        };
        let (objects, count) = (self.dock.identity_count(), self.dock.svid_count());
        let (page, edition) = (self.dock.page(), self.dock.edition().number());
        format!("state {objects} {count} {page} {standing} {edition}")
    }
}

/// A number that names no answer is give.
fn policy_answer(words: &mut Words) -> Result<PolicyAnswer, String> {
    Ok(match words.decimal::<u8>()? {
        1 => PolicyAnswer::Nak,
        2 => PolicyAnswer::Busy,
        _ => PolicyAnswer::Give,
    })
}

fn request(words: &mut Words) -> Result<Request, String> {
    Ok(Request {
        svid: words.hex()?,
        command: words.decimal()?,
        position: words.decimal()?,
    })
}
