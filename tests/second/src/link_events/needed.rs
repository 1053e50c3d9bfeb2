//! The answers that a gathering of one side still needs, told from its dock's data and from what has
//! come in it. Of the laptop nothing is asked but what it awaits from that side; the caller says when
//! a gathering begins anew.

use super::Data;
use crate::laptop::MOST_PAGES;
use crate::messages::{Message, Request, ACK, BUSY, IDENTITY, MODES, NAK, PD_SID, SVIDS};
use crate::pages::{page, PAGE_SVIDS};

#[derive(Clone, Debug, PartialEq, Eq)]
struct Answer {
    request: Request,
    kind: u8,
    objects: Vec<u32>,
}

/// What an arrival is to the gathering.
#[derive(Clone, Copy, Debug, PartialEq, Eq)]
pub enum Arrival {
    /// Awaited, not BUSY, and no page that came before.
    New,
    /// A late page with nothing awaited from the side while its list is open, or the 200th page without an end.
    Ends,
    Other,
}

pub struct Needed {
    in_all: Vec<Answer>,
    /// Which of them have come since Identity went out.
    has_come: Vec<bool>,
    /// The pages received since, those that came again too.
    pages: usize,
}

impl Answer {
    fn new(svid: u16, command: u8, kind: u8, objects: Vec<u32>) -> Self {
        let request = Request {
            svid,
            command,
            position: 0,
        };
        Answer {
            request,
            kind,
            objects,
        }
    }

    fn of(message: &Message) -> Self {
        Answer {
            request: message.request(),
            kind: message.kind,
            objects: message.objects.as_slice().to_vec(),
        }
    }

    fn is_page(&self) -> bool {
        (self.request.command, self.kind) == (SVIDS, ACK)
    }
}

impl Needed {
    pub fn by(data: &Data) -> Self {
        let identity = Answer::new(PD_SID, IDENTITY, ACK, data.identity.clone());
        let mut in_all = vec![identity];
        if data.svids.is_empty() {
            in_all.push(Answer::new(PD_SID, SVIDS, NAK, Vec::new()));
        } else {
            let pages = 0..=data.svids.len() / PAGE_SVIDS;
            in_all.extend(pages.map(|number| {
                let shown = page(&data.svids, number);
                Answer::new(PD_SID, SVIDS, ACK, shown.objects)
            }));
        }
        let modes = data.svids.iter().zip(&data.modes);
        in_all.extend(modes.map(|(&svid, modes)| Answer::new(svid, MODES, ACK, modes.clone())));
        Needed {
            has_come: vec![false; in_all.len()],
            in_all,
            pages: 0,
        }
    }

    /// How many answers have not come.
    pub fn number(&self) -> usize {
        self.missing().count()
    }

    /// Whether an answer to SVIDs is still needed.
    pub fn is_listing(&self) -> bool {
        self.missing().any(|answer| answer.request.command == SVIDS)
    }

    pub fn pages(&self) -> usize {
        self.pages
    }

    pub fn begin_anew(&mut self) {
        self.has_come.fill(false);
        self.pages = 0;
    }

    /// A message of the side arrives at a laptop that awaits this from it.
    pub fn arrive(&mut self, awaited: Option<Request>, message: &Message) -> Arrival {
        let answer = Answer::of(message);
        let is_gathered = answer.request.command <= MODES && answer.kind != BUSY;
        if awaited == Some(answer.request) && is_gathered {
            return self.add(answer);
        }
        if awaited.is_none() && answer.is_page() && self.is_listing() {
            self.begin_anew();
            return Arrival::Ends;
        }
        Arrival::Other
    }

    fn add(&mut self, answer: Answer) -> Arrival {
        let place = self.in_all.iter().position(|needed| *needed == answer);
        let has_come = place.map(|place| std::mem::replace(&mut self.has_come[place], true));
        self.pages += usize::from(answer.is_page());
        if self.pages >= MOST_PAGES && self.is_listing() {
            self.begin_anew();
            return Arrival::Ends;
        }
        if answer.is_page() && has_come == Some(true) {
            return Arrival::Other;
        }
        Arrival::New
    }

    fn missing(&self) -> impl Iterator<Item = &Answer> {
        let answers = self.in_all.iter().zip(&self.has_come);
        answers.filter_map(|(answer, has_come)| (!has_come).then_some(answer))
    }
}
