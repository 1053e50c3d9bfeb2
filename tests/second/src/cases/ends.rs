//! Both ends without a link between them: what one sends is handed to the other.

use crate::call::Call;
use crate::dock::{Dock, PolicyAnswer, Standing};
use crate::laptop::Candidate;
use crate::messages::{MODES, MOST_OBJECTS, OBJECT_BYTES};
use crate::side::Side;
use crate::watcher::{Event, Run};

pub const IDENTITY_OBJECTS: [u32; 3] = [1, 2, 3];
/// The one mode of each SVID.
pub const MODE: u32 = 0x405;

pub struct Ends {
    pub run: Run,
    pub dock: Dock,
}

impl Ends {
    /// A fresh laptop, and a dock with so many SVIDs.
    pub fn with(count: u16) -> Self {
        Ends {
            run: Run::default(),
            dock: loaded(count),
        }
    }

    /// A request of *next*, and its answer, which the dock is still sending then. Gives the answer
    /// and the number by which the laptop refuses it, or 0.
    pub fn exchange(&mut self, policy: PolicyAnswer) -> (Vec<u32>, u8) {
        let asked = self.run.take(&Event::Call(Call::Next(Side::Partner)));
        let header = asked.sent.expect("next sends a request");
        let objects = answer(&mut self.dock, header, policy);
        let event = Event::Message {
            side: Side::Partner,
            objects: objects.clone(),
        };
        (objects, self.run.take(&event).refusal)
    }

    pub fn confirm(&mut self) {
        self.dock.sent().expect("an answer is being sent");
    }

    pub fn fail(&mut self) {
        self.dock.failed().expect("an answer is being sent");
    }

    /// Asks on until there is no candidate.
    pub fn gather(&mut self) {
        while *self.run.laptop().candidate(Side::Partner) != Candidate::None {
            self.exchange(PolicyAnswer::Give);
            self.confirm();
        }
    }
}

/// A dock with the SVIDs 1 to `count`.
pub fn loaded(count: u16) -> Dock {
    let svids: Vec<u16> = (1..=count).collect();
    let mut dock = Dock::fresh();
    dock.load(&IDENTITY_OBJECTS, &svids)
        .expect("the data keeps its limits");
    dock
}

/// The objects that the dock sends on a request of one object.
pub fn answer(dock: &mut Dock, header: u32, policy: PolicyAnswer) -> Vec<u32> {
    dock.message(&header.to_le_bytes(), &mut [])
        .expect("the request is good");
    let Standing::Asking(request) = dock.standing() else {
        panic!("policy is asked");
    };
    let objects = match request.command {
        MODES => &[MODE][..],
        _ => &[],
    };
    let mut out = [0; MOST_OBJECTS * OBJECT_BYTES];
    let length = dock
        .policy(policy, request, objects, &mut out)
        .expect("policy's answer is sent");
    let (objects, _) = out[..length].as_chunks();
    objects.iter().copied().map(u32::from_le_bytes).collect()
}
