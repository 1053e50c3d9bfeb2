//! Makes the events: those of the watcher's generator, among which runs and buffers are too short,
//! messages are no whole objects, and the report and the catalogue are asked for.

mod damage;
mod lent;
mod past_two_hundred;
mod readings;

use super::event::MOST_CATALOGUE_ROOM;
use super::{Event, Outcome, Run};
use crate::edition::Edition;
use crate::fields::{LIST_DONE, LIST_OPEN, NO_CANDIDATE};
use crate::laptop::Candidate;
use crate::messages::bytes_of;
use crate::random::Random;
use crate::reached::{beside_refusals, refusals};
use crate::side::Side;
use crate::watcher;
use std::collections::BTreeSet;

/// How many streams are stored.
pub const STREAMS: u64 = 2048;
/// The refusal that is the dock's alone.
const OF_THE_DOCK: &str = "refusal 10";
/// Of a sort of other events, one comes before or after one event in so many.
const SELDOM: usize = 24;

/// A side's candidate, and from which side which command is awaited.
type Situation = (&'static str, Option<(Side, u8)>);

struct Generator {
    random: Random,
    /// The laptop under the events so far.
    run: Run,
    /// By the kind of event and its side's edition, its candidate and what is awaited.
    situations: BTreeSet<(u8, Edition, Situation)>,
    /// By side, those in which its catalogue was written and a damaged message came.
    written: BTreeSet<(Side, Situation)>,
    events: Vec<Event>,
}

/// All events of a seed, in the order of the stream. The sequences before the watcher's events
/// leave a laptop that awaits, gathers and holds nothing, as those events expect it.
pub fn generate(seed: u64) -> Vec<Event> {
    let mut generator = Generator::of(Random::from_seed(seed));
    for side in Side::BOTH {
        generator.nothing_held(side);
    }
    generator.past_two_hundred();
    for event in watcher::generator::generate(seed) {
        generator.among(&event.into());
    }
    generator.events
}

/// The stored stream of that number, which is its seed: a long one first, and then short ones.
pub fn stored_stream(number: u64) -> Vec<Event> {
    if number <= 1 {
        return generate(number);
    }
    let mut generator = Generator::of(Random::from_small_seed(number));
    for event in watcher::generator::generate_short(number - 2) {
        generator.seldom_among(&event.into());
    }
    generator.events
}

/// What the lines of any seed reach.
pub fn expected() -> Vec<String> {
    let refusals = refusals().into_iter().filter(|name| name != OF_THE_DOCK);
    refusals.chain(beside_refusals()).collect()
}

impl From<watcher::Event> for Event {
    fn from(event: watcher::Event) -> Self {
        match event {
            watcher::Event::Message { side, objects } => Event::of_objects(side, &objects),
            watcher::Event::Call(call) => Event::Call(call),
        }
    }
}

impl Event {
    fn of_objects(side: Side, objects: &[u32]) -> Self {
        let bytes = bytes_of(objects);
        Event::Message { side, bytes }
    }
}

impl Generator {
    fn of(random: Random) -> Self {
        Generator {
            random,
            run: Run::default(),
            situations: BTreeSet::new(),
            written: BTreeSet::new(),
            events: Vec::new(),
        }
    }

    fn push(&mut self, event: Event) -> Outcome {
        let outcome = self.run.take(&event);
        self.events.push(event);
        outcome
    }

    /// An event of the watcher, at times with others before and after it, none of which changes
    /// the laptop.
    fn among(&mut self, event: &Event) {
        let side = event.side().unwrap_or(Side::Partner);
        let situation = self.situation(side);
        let edition = self.run.laptop().edition(side);
        if self.situations.insert((event.kind(), edition, situation)) {
            self.with_each_short_length(event);
        }
        if self.written.insert((side, situation)) {
            self.write_with_all_runs(side, MOST_CATALOGUE_ROOM);
            self.damaged(event);
        }
        if self.is_seldom() {
            self.damaged(event);
        }
        let held_before = self.run.laptop().held(side).cloned();
        if self.is_seldom() {
            self.with_drawn_lengths(event);
        } else {
            self.push(event.clone());
        }
        if self.run.laptop().held(side) != held_before.as_ref() {
            self.catalogue_at_its_length(side);
        }
        if self.is_seldom() {
            self.drawn_reading(event);
        }
    }

    /// As among others, but of those only one sort at a time.
    fn seldom_among(&mut self, event: &Event) {
        let side = event.side().unwrap_or(Side::Partner);
        let held_before = self.run.laptop().held(side).cloned();
        match self.random.below(SELDOM) {
            0 => self.with_drawn_lengths(event),
            1 => {
                self.with_each_short_length(event);
                self.push(event.clone());
            }
            2 => {
                self.damaged(event);
                self.push(event.clone());
            }
            3 => {
                self.drawn_reading(event);
                self.push(event.clone());
            }
            _ => {
                self.push(event.clone());
            }
        }
        if self.run.laptop().held(side) != held_before.as_ref() {
            self.catalogue_at_its_length(side);
        }
    }

    fn is_seldom(&mut self) -> bool {
        self.random.below(SELDOM) == 0
    }

    fn situation(&self, side: Side) -> Situation {
        let laptop = self.run.laptop();
        let candidate = match laptop.candidate(side) {
            Candidate::None => NO_CANDIDATE,
            Candidate::ListOpen(_) => LIST_OPEN,
            Candidate::ListDone(_) => LIST_DONE,
        };
        let awaited = laptop.awaited();
        let awaited = awaited.map(|awaited| (awaited.side, awaited.request.command));
        (candidate, awaited)
    }
}
