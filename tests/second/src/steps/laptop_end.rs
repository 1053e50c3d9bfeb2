//! The laptop's calls, and the catalogue's bytes.

use super::{refused, sends, written, written_past, Line, Out, Words, MOST_ROOM, UNWRITTEN};
use crate::call::Call;
use crate::catalogue::{Catalogue, MOST_CATALOGUE_BYTES, RUN_WORDS};
use crate::laptop::{Accepted, Answer, Awaited, Candidate, Laptop, Reason, Runs, Told};
use crate::lent_runs::LentRuns;
use crate::messages::ATTENTION;
use crate::side::{Side, Sides};

const UNWRITTEN_WORD: u32 = u32::from_ne_bytes([UNWRITTEN; 4]);

/// The numbers of an accepted call.
type Handed = [u32; 8];

/// The laptop, its runs, and what its calls hand over in.
#[derive(Clone)]
pub struct LaptopEnd {
    laptop: Laptop,
    runs: Sides<LentRuns>,
    words: Sides<WordsLent>,
    out: Out,
    handed: Handed,
    catalogue: Vec<u8>,
}

/// How many words of each run of a side a call is lent.
#[derive(Clone)]
struct WordsLent {
    run: usize,
    held_run: usize,
}

impl LaptopEnd {
    pub fn fresh() -> Self {
        LaptopEnd {
            laptop: Laptop::fresh(),
            runs: Sides::each(|_| LentRuns::of(UNWRITTEN_WORD, RUN_WORDS)),
            words: Sides::each(|_| WordsLent {
                run: RUN_WORDS,
                held_run: RUN_WORDS,
            }),
            out: [UNWRITTEN; MOST_ROOM],
            handed: [UNWRITTEN_WORD; 8],
            catalogue: vec![UNWRITTEN; MOST_CATALOGUE_BYTES],
        }
    }

    pub fn take(&mut self, name: &str, words: &mut Words, room: usize) -> Line {
        let blank = Self::fresh();
        self.out = blank.out;
        self.handed = blank.handed;
        self.catalogue = blank.catalogue;
        match name {
            "laptop_fresh" => {
                (self.laptop, self.runs) = (blank.laptop, blank.runs);
                Ok(format!("made, {}", self.state()))
            }
            "laptop_report" => {
                let (side, svid) = (words.side()?, words.hex()?);
                let entered = self.laptop.entered_count(side, svid);
                Ok(format!("{entered} entered"))
            }
            "runs" => {
                let lent = &mut self.words[words.side()?];
                (lent.run, lent.held_run) = (words.decimal()?, words.decimal()?);
                Ok("set".to_string())
            }
            "catalogue_write" => Ok(self.write(words.side()?, words.decimal()?)),
            _ => self.take_call(name, words, room),
        }
    }

    fn take_call(&mut self, name: &str, words: &mut Words, room: usize) -> Line {
        let before = self.clone();
        let (side, answer) = match name {
            "laptop_message" => {
                let (side, bytes) = (words.side()?, words.bytes()?);
                (side, self.message(side, &bytes))
            }
            _ => {
                let call = call_of(name, words)?;
                let side = call.side().unwrap_or(self.side_that_waits());
                (side, self.call(call, side, room))
            }
        };
        let line = match answer {
            Ok(accepted) => self.accepted(side, &accepted, &before),
            Err(refusal) => self.refused(refusal, &before),
        };
        Ok(format!("{line}, {}", self.state()))
    }

    /// The partner where nothing is awaited: the call is refused then.
    fn side_that_waits(&self) -> Side {
        let awaited = self.laptop.awaited();
        awaited.map_or(Side::Partner, |awaited| awaited.side)
    }

    fn message(&mut self, side: Side, bytes: &[u8]) -> Answer {
        let runs = &mut lent(&mut self.runs[side], &self.words[side]);
        self.laptop.message(side, bytes, runs)
    }

    fn call(&mut self, call: Call, side: Side, room: usize) -> Answer {
        let runs = &mut lent(&mut self.runs[side], &self.words[side]);
        call.make(&mut self.laptop, runs, &mut self.out[..room])
    }

    fn write(&mut self, side: Side, room: usize) -> String {
        let before = self.clone();
        let held_run = &self.runs[side].held[..self.words[side].held_run];
        let out = &mut self.catalogue[..room];
        match self.laptop.write_catalogue(side, held_run, out) {
            Ok(length) => {
                let (written, past) = self.catalogue.split_at(length);
                let bytes: String = written.iter().map(|byte| format!("{byte:02X}")).collect();
                let past = written_past(past, length);
                format!("accepted, length {length}, bytes {bytes}{past}")
            }
            Err(refusal) => self.refused(refusal, &before),
        }
    }

    fn accepted(&mut self, side: Side, accepted: &Accepted, before: &Self) -> String {
        self.handed = handed(side, accepted);
        let [length, told, svid, command, position, count, object, side] = self.handed;
        let sent = sends(&self.out, accepted.length);
        let runs = Side::BOTH.map(|side| {
            let (runs, old) = (&self.runs[side], &before.runs[side]);
            let run = written(&format!("{side}_run"), &runs.candidate, &old.candidate);
            let held_run = written(&format!("{side}_held_run"), &runs.held, &old.held);
            run + &held_run
        });
        format!(
            "accepted, handed {length} {told} {svid:04X} {command} {position} {count} {object:08X} {side}, {sent}{}",
            runs.concat()
        )
    }

    fn refused(&self, refusal: u8, before: &Self) -> String {
        let (runs, old) = (&self.runs, &before.runs);
        let parts = [
            ("state", self.laptop != before.laptop),
            (
                "partner_run",
                runs.partner.candidate != old.partner.candidate,
            ),
            ("partner_held_run", runs.partner.held != old.partner.held),
            ("cable_run", runs.cable.candidate != old.cable.candidate),
            ("cable_held_run", runs.cable.held != old.cable.held),
            ("handed", self.handed != before.handed),
            ("out", self.out != before.out),
            ("catalogue", self.catalogue != before.catalogue),
        ];
        refused(refusal, &parts)
    }

    /// The twenty-two numbers; one that stands for nothing is a dash.
    fn state(&self) -> String {
        let awaited = match self.laptop.awaited() {
            Some(Awaited { side, request }) => format!(
                "{} {:04X} {} {}",
                number(side) + 1,
                request.svid,
                request.command,
                request.position
            ),
            None => "0 - - -".to_string(),
        };
        let sides = Side::BOTH.map(|side| format!(", {side} {}", self.side_state(side)));
        format!("awaited {awaited}{}", sides.concat())
    }

    fn side_state(&self, side: Side) -> String {
        let candidate = match self.laptop.candidate(side) {
            Candidate::None => "0 - - -".to_string(),
            Candidate::ListOpen(gathered) => format!("1 {}", sizes(gathered)),
            Candidate::ListDone(gathered) => format!("2 {}", sizes(gathered)),
        };
        let held = match self.laptop.held(side) {
            Some(held) => format!("1 {} {}", held.identity.len(), held.svids.len()),
            None => "0 - -".to_string(),
        };
        let pages = self.laptop.page_count(side);
        let edition = self.laptop.edition(side).number();
        format!("{candidate} {pages} {held} {edition}")
    }
}

fn lent<'run>(runs: &'run mut LentRuns, words: &WordsLent) -> Runs<'run> {
    Runs {
        held: &mut runs.held[..words.held_run],
        candidate: &mut runs.candidate[..words.run],
    }
}

fn call_of(name: &str, words: &mut Words) -> Result<Call, String> {
    Ok(match name {
        "laptop_next" => Call::Next(words.side()?),
        "laptop_start_over" => Call::StartOver(words.side()?),
        "laptop_drop" => Call::Drop(words.side()?),
        "laptop_response_timer" => Call::ResponseTimer,
        "laptop_entry_timer" => Call::EntryTimer,
        "laptop_exit_timer" => Call::ExitTimer,
        "laptop_protocol_error" => Call::ProtocolError,
        "laptop_enter" => Call::Enter {
            side: words.side()?,
            svid: words.hex()?,
            position: words.decimal()?,
        },
        "laptop_exit" => Call::Exit {
            side: words.side()?,
            svid: words.hex()?,
            position: words.decimal()?,
        },
        _ => return Err(format!("an unknown step: {name}")),
    })
}

/// The numbers of a call that was accepted; what policy is told names its side itself.
fn handed(side: Side, accepted: &Accepted) -> Handed {
    let length = accepted.length as u32;
    match accepted.told {
        None => [length, 0, 0, 0, 0, 0, 0, number(side)],
        Some(Told::Attention { side, message }) => {
            let objects = message.objects.as_slice();
            let object = objects.first().copied().unwrap_or(0);
            let [svid, position] = [message.svid.into(), message.position.into()];
            let (command, count, side) = (ATTENTION.into(), objects.len() as u32, number(side));
            [length, 1, svid, command, position, count, object, side]
        }
        Some(Told::Unmarked {
            side,
            request,
            reason,
        }) => {
            let told = match reason {
                Reason::Nak => 2,
                Reason::Busy => 3,
                Reason::Timer => 4,
                Reason::ProtocolError => 5,
            };
            let [command, position] = [request.command, request.position].map(u32::from);
            let (svid, side) = (request.svid.into(), number(side));
            [length, told, svid, command, position, 0, 0, side]
        }
    }
}

fn number(side: Side) -> u32 {
    match side {
        Side::Partner => 0,
        Side::Cable => 1,
    }
}

fn sizes(gathered: &Catalogue) -> String {
    let (objects, count) = (gathered.identity.len(), gathered.svids.len());
    format!("{objects} {count} {}", gathered.mode_counts.len())
}
