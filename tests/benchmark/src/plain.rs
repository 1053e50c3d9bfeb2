//! The laptop's message call as one would write it in Rust without a heap: plain arrays behind
//! `&mut self`, loops that leave early. The laptop has two sides, and one wait.

use second::catalogue::{MOST_MODES, RUN_WORDS};
use second::edition::{Edition, OURS};
use second::laptop::Awaited;
use second::messages::{
    read, Message, ACK, ATTENTION, BUSY, ENTER, IDENTITY, MODES, MOST_AFTER_HEADER, NAK, REQ, SVIDS,
};
use second::pages::{MOST_SVIDS, PAGE_SVIDS};
use second::refusals::{ACCEPTED, NOT_AWAITED, NO_END, VOIDED};
use second::side::{Side, Sides};

const MOST_PAGES: u8 = 200;
const ALL_POSITIONS: u8 = 0b11_1111;
const ALL: u8 = 7;

/// What is told to policy, of which request and of which side: the numbers that the proved library
/// hands over.
pub type Handed = [u32; 8];
const TOLD_ATTENTION: u32 = 1;
const TOLD_NAK: u32 = 2;
const TOLD_BUSY: u32 = 3;

#[derive(Clone, Copy, PartialEq, Eq)]
pub enum Stage {
    NoCandidate,
    ListOpen,
    ListDone,
}

/// How many identity objects and SVIDs.
#[derive(Clone, Copy)]
pub struct Size {
    pub objects: u8,
    pub count: u8,
}

/// How far the gathering of a side has come, and what it holds.
#[derive(Clone, Copy)]
pub struct State {
    pub stage: Stage,
    pub gathered: Size,
    /// How many SVIDs have their modes.
    pub stored: u8,
    pub pages: u8,
    pub held: Option<Size>,
    /// Of what is sent.
    pub edition: Edition,
}

pub struct Catalogue {
    pub svids: [u16; MOST_SVIDS],
    pub modes: [u8; MOST_SVIDS],
    pub identity: [u32; MOST_AFTER_HEADER],
    pub run: [u32; RUN_WORDS],
}

/// What the laptop has of a side.
pub struct LaptopSide {
    pub state: State,
    pub candidate: Catalogue,
    held: Catalogue,
    entered: [u8; MOST_SVIDS],
}

pub struct Laptop {
    pub awaited: Option<Awaited>,
    pub sides: Sides<LaptopSide>,
}

impl State {
    pub const FRESH: State = State {
        stage: Stage::NoCandidate,
        gathered: Size {
            objects: 0,
            count: 0,
        },
        stored: 0,
        pages: 0,
        held: None,
        edition: OURS,
    };
}

impl Catalogue {
    fn empty() -> Self {
        Catalogue {
            svids: [0; MOST_SVIDS],
            modes: [0; MOST_SVIDS],
            identity: [0; MOST_AFTER_HEADER],
            run: [0; RUN_WORDS],
        }
    }
}

impl Laptop {
    pub fn fresh() -> Self {
        Laptop {
            awaited: None,
            sides: Sides::each(|_| LaptopSide::fresh()),
        }
    }

    /// A refusal leaves `handed` as it is.
    #[inline(never)]
    pub fn message(&mut self, side: Side, bytes: &[u8], handed: &mut Handed) -> u8 {
        let mut over = [0; 8];
        over[7] = side as u32;
        let refusal = self.hear(side, bytes, &mut over);
        if refusal == ACCEPTED {
            *handed = over;
        }
        refusal
    }

    fn hear(&mut self, side: Side, bytes: &[u8], handed: &mut Handed) -> u8 {
        let message = match read(bytes) {
            Ok(message) => message,
            Err(refusal) => return refusal,
        };
        if message.kind == REQ {
            return hear_request(&message, handed);
        }
        let hearing = &mut self.sides[side];
        match self.awaited {
            Some(awaited) if awaited.side == side => {
                if awaited.request != message.request() {
                    return NOT_AWAITED;
                }
            }
            _ => return hearing.hear_unawaited(&message),
        }
        self.awaited = None;
        match message.command {
            IDENTITY => hearing.hear_identity(&message),
            SVIDS => hearing.hear_svids(&message),
            MODES => hearing.hear_modes(&message),
            _ => hearing.hear_mode(&message, handed),
        }
    }
}

impl LaptopSide {
    fn fresh() -> Self {
        LaptopSide {
            state: State::FRESH,
            candidate: Catalogue::empty(),
            held: Catalogue::empty(),
            entered: [0; MOST_SVIDS],
        }
    }

    /// A message while nothing is awaited from this side.
    fn hear_unawaited(&mut self, message: &Message) -> u8 {
        let is_page = message.command == SVIDS && message.kind == ACK;
        if is_page && self.state.stage == Stage::ListOpen {
            self.state.stage = Stage::NoCandidate;
        }
        NOT_AWAITED
    }

    fn hear_identity(&mut self, message: &Message) -> u8 {
        if message.kind != ACK {
            self.state.stage = Stage::NoCandidate;
            return ACCEPTED;
        }
        self.state.stage = Stage::ListOpen;
        self.state.gathered = Size {
            objects: message.objects.as_slice().len() as u8,
            count: 0,
        };
        self.state.stored = 0;
        self.state.edition = message.edition.lower(OURS);
        self.candidate.svids = [0; MOST_SVIDS];
        self.candidate.identity = *message.objects.words();
        ACCEPTED
    }

    fn hear_svids(&mut self, message: &Message) -> u8 {
        match message.kind {
            ACK => {
                self.state.pages = self.state.pages.saturating_add(1);
                self.take_page(message.objects.as_slice())
            }
            BUSY => ACCEPTED,
            _ if self.state.gathered.count == 0 => {
                self.state.stage = Stage::ListDone;
                self.publish_if_whole()
            }
            _ => self.drop_with(VOIDED),
        }
    }

    fn take_page(&mut self, objects: &[u32]) -> u8 {
        let mut halves = [0; PAGE_SVIDS];
        for (pair, object) in halves.chunks_exact_mut(2).zip(objects) {
            pair[0] = (object >> 16) as u16;
            pair[1] = *object as u16;
        }
        let values = &halves[..objects.len() * 2];
        let count = usize::from(self.state.gathered.count);
        let gathered = &self.candidate.svids[..count];
        let is_repeat = values.len() == PAGE_SVIDS && gathered.ends_with(values);
        let too_many = self.state.pages >= MOST_PAGES;
        if is_repeat {
            return if too_many {
                self.drop_with(NO_END)
            } else {
                ACCEPTED
            };
        }
        let new = values_before_zero(values);
        let is_full = new.len() == PAGE_SVIDS;
        let is_ending = matches!(values[new.len()..], [0] | [0, 0]);
        let total = count + new.len();
        let is_good = (is_full || is_ending) && total > 0 && total <= MOST_SVIDS;
        if !is_good || !all_new(gathered, new) {
            return self.drop_with(VOIDED);
        }
        if is_full && too_many {
            return self.drop_with(NO_END);
        }
        self.candidate.svids[count..total].copy_from_slice(new);
        self.state.gathered.count = total as u8;
        if is_ending {
            self.state.stage = Stage::ListDone;
        }
        self.publish_if_whole()
    }

    fn drop_with(&mut self, refusal: u8) -> u8 {
        self.state.stage = Stage::NoCandidate;
        refusal
    }

    fn hear_modes(&mut self, message: &Message) -> u8 {
        let place = usize::from(self.state.stored);
        match message.kind {
            BUSY => return ACCEPTED,
            ACK if place < MOST_SVIDS => {}
            _ => return self.drop_with(VOIDED),
        }
        let modes = message.objects.as_slice();
        self.candidate.run[place * MOST_MODES..][..modes.len()].copy_from_slice(modes);
        self.candidate.modes[place] = modes.len() as u8;
        self.state.stored += 1;
        self.publish_if_whole()
    }

    fn publish_if_whole(&mut self) -> u8 {
        let size = self.state.gathered;
        if self.state.stage == Stage::ListDone && size.count <= self.state.stored {
            self.held.svids = self.candidate.svids;
            self.held.modes = self.candidate.modes;
            self.held.identity = self.candidate.identity;
            for place in 0..usize::from(size.count).min(MOST_SVIDS) {
                let first = place * MOST_MODES;
                let words = usize::from(self.candidate.modes[place]).min(MOST_MODES);
                self.held.run[first..first + words]
                    .copy_from_slice(&self.candidate.run[first..first + words]);
            }
            self.state.held = Some(size);
            self.state.stage = Stage::NoCandidate;
        }
        ACCEPTED
    }

    fn hear_mode(&mut self, message: &Message, handed: &mut Handed) -> u8 {
        if message.kind != ACK {
            let told = if message.kind == NAK {
                TOLD_NAK
            } else {
                TOLD_BUSY
            };
            tell(told, message, handed);
            return ACCEPTED;
        }
        let count = self.state.held.map_or(0, |size| usize::from(size.count));
        let list = &self.held.svids[..count.min(MOST_SVIDS)];
        if let Some(place) = list.iter().position(|&svid| svid == message.svid) {
            let named = match message.position {
                ALL => ALL_POSITIONS,
                position => 1 << (position - 1),
            };
            match message.command {
                ENTER => self.entered[place] |= named,
                _ => self.entered[place] &= ALL_POSITIONS & !named,
            }
        }
        ACCEPTED
    }
}

fn hear_request(message: &Message, handed: &mut Handed) -> u8 {
    if message.command != ATTENTION {
        return NOT_AWAITED;
    }
    tell(TOLD_ATTENTION, message, handed);
    handed[5] = message.objects.as_slice().len() as u32;
    handed[6] = message.objects.words()[0];
    ACCEPTED
}

fn tell(told: u32, message: &Message, handed: &mut Handed) {
    handed[1] = told;
    handed[2] = message.svid.into();
    handed[3] = message.command.into();
    handed[4] = message.position.into();
}

fn values_before_zero(values: &[u16]) -> &[u16] {
    let count = values.iter().take_while(|&&value| value != 0).count();
    &values[..count]
}

/// Whether none is gathered, and none stands twice among them.
fn all_new(gathered: &[u16], new: &[u16]) -> bool {
    for (at, svid) in new.iter().enumerate() {
        if gathered.contains(svid) || new[at + 1..].contains(svid) {
            return false;
        }
    }
    true
}
