//! Makes the start and the events: gatherings without losses, with late answers, with pages that
//! stay unconfirmed up to the two hundredth, and drawn ones, of docks of each edition; and beside
//! those of one side, events of the other.

mod beside;
mod drawn;
mod in_vain;
mod late;
mod short;
mod sort;
mod unconfirmed;

use super::{Data, Event, FarEnd, LinkEvent, Outcome, SideStart, Start, System};
use crate::call::Call;
use crate::catalogue::MOST_MODES;
use crate::dock::{LEAST_IDENTITY, MOST_IDENTITY, MOST_SVIDS};
use crate::edition::Edition;
use crate::random::Random;
use crate::side::{Side, Sides};
use sort::Sort;

pub use sort::STREAMS;

const LENGTHS: u64 = MOST_SVIDS as u64 + 1;
/// What ends a wait without an answer.
const WAIT_ENDS: [Event; 2] = [Event::Timer, Event::Call(Call::ProtocolError)];

struct Generator {
    random: Random,
    /// The ends and the links under the events so far.
    system: System,
    events: Vec<Event>,
    /// The side whose events are made.
    side: Side,
}

/// The start and all events of a seed. Seeds in a row have lists of every length: the partner's each
/// a SVID shorter than the last, and the cable's a SVID longer.
pub fn generate(seed: u64) -> (Start, Vec<Event>) {
    let cable = (seed % LENGTHS) as usize;
    let lengths = Sides {
        partner: MOST_SVIDS - cable,
        cable,
    };
    let (start, mut generator) = begin(Random::from_seed(seed), lengths);
    for side in Side::BOTH {
        generator.side = side;
        generator.late();
        generator.gather();
        generator.unconfirmed();
        generator.each_identity_in_vain();
    }
    generator.drawn();
    (start, generator.events)
}

/// The stored stream of that number, which is its seed: a long one first, and then short ones.
pub fn stored_stream(number: u64) -> (Start, Vec<Event>) {
    if number <= 1 {
        return generate(number);
    }
    let mut random = Random::from_small_seed(number);
    let sort = Sort::of(number - 2);
    let lengths = sort.lengths(&mut random);
    let (start, mut generator) = begin(random, lengths);
    generator.short(sort);
    (start, generator.events)
}

fn begin(mut random: Random, lengths: Sides<usize>) -> (Start, Generator) {
    let start = Start::each(|side| drawn_start(&mut random, lengths[side]));
    let generator = Generator {
        random,
        system: System::begin(&start),
        events: Vec::new(),
        side: Side::Partner,
    };
    (start, generator)
}

fn drawn_start(random: &mut Random, length: usize) -> SideStart {
    SideStart {
        data: drawn_data(random, length),
        page: random.byte() % 9,
        holds_old: random.below(2) == 1,
        highest: random.one_of(&Edition::ALL),
    }
}

fn drawn_data(random: &mut Random, length: usize) -> Data {
    let more = random.below(MOST_IDENTITY - LEAST_IDENTITY + 1);
    let identity = random.objects(LEAST_IDENTITY + more);
    let svids = random.different_svids(length);
    let modes = svids.iter().map(|_| {
        let count = 1 + random.below(MOST_MODES);
        random.objects(count)
    });
    let modes = modes.collect();
    Data {
        identity,
        svids,
        modes,
    }
}

impl Generator {
    fn push(&mut self, event: Event) -> Outcome {
        let outcome = self.system.take(&event);
        self.events.push(event);
        outcome
    }

    /// On the link of the side, or at its far end.
    fn happen(&mut self, event: LinkEvent) {
        self.push(Event::On(self.side, event));
    }

    fn ask_next(&mut self) -> Outcome {
        self.push(Event::Call(Call::Next(self.side)))
    }

    /// A next, with what the other side does before it and beside it.
    fn next(&mut self) {
        self.between();
        self.ask_next();
        self.beside();
    }

    fn far_end(&self) -> &FarEnd {
        self.system.far_end(self.side)
    }

    fn has_candidate(&self) -> bool {
        self.system.has_candidate(self.side)
    }

    fn waits(&self) -> bool {
        self.system.waiting() == Some(self.side)
    }

    /// The event that brings an exchange on: what is under way first, then the confirmation, and the
    /// timer if nothing else is left.
    fn on_the_way(&self) -> Option<Event> {
        let forward = [
            LinkEvent::AnswerArrives,
            LinkEvent::Sent,
            LinkEvent::Give,
            LinkEvent::RequestReaches,
        ];
        let permitted = |event: &LinkEvent| self.far_end().permits(*event);
        let on_link = forward.into_iter().find(permitted);
        let on_link = on_link.map(|event| Event::On(self.side, event));
        on_link.or_else(|| self.waits().then_some(Event::Timer))
    }

    /// Lets an exchange come to its end, without losses from here on.
    fn finish(&mut self) {
        while let Some(event) = self.on_the_way() {
            self.push(event);
        }
    }

    /// Sends a next and lets the exchange come to its end.
    fn exchange(&mut self) {
        self.next();
        self.finish();
    }

    /// Opens an empty list.
    fn open(&mut self) {
        self.finish();
        self.push(Event::Call(Call::StartOver(self.side)));
        self.finish();
    }

    /// A gathering without losses.
    fn gather(&mut self) {
        self.open();
        self.gather_on();
    }

    fn gather_on(&mut self) {
        while self.has_candidate() {
            self.exchange();
        }
    }

    /// The answer to a next is under way.
    fn answer(&mut self) {
        self.next();
        self.happen(LinkEvent::RequestReaches);
        self.happen(LinkEvent::Give);
        self.beside();
    }

    fn end_wait(&mut self) {
        let end = self.random.one_of(&WAIT_ENDS);
        self.push(end);
    }

    fn last_page_is_shown(&self) -> bool {
        self.far_end().dock().page() == self.far_end().last_page()
    }
}
