//! Makes the events: the cases of 01, then sequences that reach every rule of the laptop end, of one
//! side or the other, with events of the other side in between.

mod bad_pages;
mod both_sides;
mod cases;
mod damage;
mod drawn;
mod editions;
mod lists;
mod meanwhile;
mod messages;
mod modes;
mod short;
mod situation;
mod two_hundred;
mod unheld;

use super::{Event, Outcome, Run};
use crate::call::Call;
use crate::edition::{Edition, OURS};
use crate::header::Header;
use crate::laptop::{Awaited, Candidate};
use crate::messages::{
    Request, ACK, BUSY, IDENTITY, LAST_POSITION, MODES, MOST_AFTER_HEADER, NAK, PD_SID, SVIDS,
};
use crate::pages::{page, PAGE_SVIDS};
use crate::random::Random;
use crate::side::{Side, Sides};

const LEAST_IDENTITY: usize = 3;
const ANSWERS: [u8; 3] = [ACK, NAK, BUSY];

struct Generator {
    random: Random,
    /// The laptop under the events so far.
    run: Run,
    /// The side whose messages and owner's calls come now.
    side: Side,
    /// The last request sent to each side.
    asked: Sides<Request>,
    /// The edition of each side's dock, drawn when Identity goes out.
    docks: Sides<Edition>,
    /// Whether events of the other side come in between.
    interleaves: bool,
    events: Vec<Event>,
}

/// All events of a seed, in the order of the stream. Nothing takes a held catalogue away, so the
/// sequences that need none come before the cases.
pub fn generate(seed: u64) -> Vec<Event> {
    let mut generator = Generator::of(Random::from_seed(seed));
    generator.for_each_side(Generator::unheld);
    generator.for_each_side(Generator::cases);
    generator.interleaves = true;
    generator.lists(seed);
    generator.two_hundred();
    generator.bad_pages();
    generator.for_each_side(Generator::modes);
    generator.interleaves = false;
    generator.for_each_side(Generator::calls_everywhere);
    generator.for_each_side(Generator::messages_everywhere);
    generator.late_answers();
    generator.damage();
    generator.for_each_side(Generator::reserved);
    generator.both_sides();
    generator.for_each_side(Generator::editions);
    generator.drawn();
    generator.events
}

/// The events of a short stream: each number from 0 up has its sort and, as its seed, its draws.
pub fn generate_short(number: u64) -> Vec<Event> {
    let mut generator = Generator::of(Random::from_small_seed(number));
    generator.short(number);
    generator.events
}

impl Generator {
    fn of(random: Random) -> Self {
        Generator {
            random,
            run: Run::default(),
            side: Side::Partner,
            asked: Sides::each(|_| Request {
                svid: PD_SID,
                command: IDENTITY,
                position: 0,
            }),
            docks: Sides::each(|_| OURS),
            interleaves: false,
            events: Vec::new(),
        }
    }

    /// From now on it is the other side's turn.
    fn turn(&mut self) {
        self.side = self.side.other();
    }

    /// Has each side's turn come, one after the other.
    fn for_each_side(&mut self, sequence: impl Fn(&mut Self)) {
        for side in Side::BOTH {
            self.side = side;
            sequence(self);
        }
    }

    fn push(&mut self, event: impl Into<Event>) -> Outcome {
        if self.interleaves && self.random.is_rare() {
            self.meanwhile();
        }
        let event = event.into();
        let outcome = self.run.take(&event);
        if let Some(Awaited { side, request }) = self.run.laptop().awaited() {
            self.asked[side] = request;
            if outcome.sent.is_some() && request.command == IDENTITY {
                self.docks[side] = self.random.one_of(&Edition::ALL);
            }
        }
        self.events.push(event);
        outcome
    }

    fn next(&mut self) -> Outcome {
        self.push(Call::Next(self.side))
    }

    fn enter(&mut self, svid: u16, position: u8) -> Outcome {
        self.push(Call::Enter {
            side: self.side,
            svid,
            position,
        })
    }

    fn exit(&mut self, svid: u16, position: u8) -> Outcome {
        self.push(Call::Exit {
            side: self.side,
            svid,
            position,
        })
    }

    fn message(&mut self, header: Header, after: &[u32]) -> Outcome {
        let objects = [&[header.word()], after].concat();
        let side = self.side;
        self.push(Event::Message { side, objects })
    }

    /// The header of an answer to the last request.
    fn fitting(&self, kind: u8) -> Header {
        header_of(self.asked[self.side], kind)
    }

    /// The header as the side's dock sends it: mostly at the dock's edition, at times in any version
    /// that is read, and with bit 5 clear or set.
    fn of_dock(&mut self, header: Header) -> Header {
        let header = header.of_another_maker(&mut self.random);
        if self.random.is_rare() {
            return header;
        }
        header.read_as(self.docks[self.side], &mut self.random)
    }

    /// An answer to the last request.
    fn answer(&mut self, kind: u8, after: &[u32]) -> Outcome {
        let header = self.of_dock(self.fitting(kind));
        self.message(header, after)
    }

    /// An answer to the last request, with drawn objects; a page has one SVID and ends the list.
    fn answer_well(&mut self, kind: u8) -> Outcome {
        self.answer_to(self.asked[self.side], kind)
    }

    /// As such an answer, to any request.
    fn answer_to(&mut self, request: Request, kind: u8) -> Outcome {
        let objects = self.good_objects(request.command, kind);
        let header = self.of_dock(header_of(request, kind));
        self.message(header, &objects)
    }

    fn good_objects(&mut self, command: u8, kind: u8) -> Vec<u32> {
        match (kind, command) {
            (ACK, IDENTITY) => {
                let more = self.random.below(MOST_AFTER_HEADER - LEAST_IDENTITY + 1);
                self.random.objects(LEAST_IDENTITY + more)
            }
            (ACK, SVIDS) => vec![u32::from(self.random.svid_but_zero()) << u16::BITS],
            (ACK, MODES) => {
                let count = 1 + self.random.below(MOST_AFTER_HEADER);
                self.random.objects(count)
            }
            _ => Vec::new(),
        }
    }

    fn acknowledge(&mut self) -> Outcome {
        self.answer_well(ACK)
    }

    /// Asks for a page and gets these objects.
    fn page(&mut self, objects: &[u32]) -> Outcome {
        self.next();
        self.answer(ACK, objects)
    }

    /// Goes back to nothing awaited, no mode entered and no candidate.
    fn settle(&mut self) {
        if self.run.laptop().awaited().is_some() {
            self.push(Call::ProtocolError);
        }
        for svid in self.held_svids() {
            if self.run.laptop().entered_count(self.side, svid) > 0 {
                self.exit(svid, LAST_POSITION);
                self.acknowledge();
            }
        }
        if *self.run.laptop().candidate(self.side) != Candidate::None {
            self.push(Call::Drop(self.side));
        }
    }

    /// Opens an empty list.
    fn open(&mut self) {
        self.settle();
        self.next();
        self.acknowledge();
    }

    /// Gathers so many full pages, and no end.
    fn gather(&mut self, svids: &[u16], pages: usize) {
        self.open();
        self.pages(svids, pages);
    }

    /// So many pages of the list.
    fn pages(&mut self, svids: &[u16], pages: usize) {
        for number in 0..pages {
            self.page(&page(svids, number).objects);
        }
    }

    /// Gathers the list to its end.
    fn list(&mut self, svids: &[u16]) {
        self.gather(svids, svids.len() / PAGE_SVIDS + 1);
    }

    /// Holds a catalogue in which each SVID has so many modes.
    fn hold(&mut self, modes: &[(u16, usize)]) {
        let svids: Vec<u16> = modes.iter().map(|&(svid, _)| svid).collect();
        self.list(&svids);
        for &(_, count) in modes {
            self.next();
            let objects = self.random.objects(count);
            self.answer(ACK, &objects);
        }
    }

    fn held_svids(&self) -> Vec<u16> {
        let held = self.run.laptop().held(self.side);
        held.map(|held| held.svids.clone()).unwrap_or_default()
    }
}

fn header_of(request: Request, kind: u8) -> Header {
    let Request {
        svid,
        command,
        position,
    } = request;
    Header::ours(svid, command, kind, position)
}
