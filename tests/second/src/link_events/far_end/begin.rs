//! How a far end stands before the first event.

use super::{FarEnd, ROOM};
use crate::dock::{Dock, PolicyAnswer};
use crate::edition::{Edition, OURS};
use crate::link_events::link::Link;
use crate::link_events::{Data, SideStart};
use crate::messages::{self, Request, IDENTITY, OBJECT_BYTES, PD_SID, REQ, SVIDS};
use std::rc::Rc;

impl FarEnd {
    pub fn begin(start: &SideStart) -> Self {
        let mut far_end = Self::loaded(start.data.clone(), start.highest);
        turn_pages(&mut far_end.dock, start.page);
        far_end
    }

    /// The other dock, from which the old catalogue was gathered.
    pub fn old() -> Self {
        Self::loaded(Data::old(), OURS)
    }

    fn loaded(data: Data, highest: Edition) -> Self {
        let mut dock = Dock::of_highest(highest);
        dock.load(&data.identity, &data.svids)
            .expect("the data keeps to its limits");
        FarEnd {
            link: Link::default(),
            dock,
            data: Rc::new(data),
            highest,
            confirmations_lost: 0,
        }
    }
}

/// Identity, and so many pages that are sent.
fn turn_pages(dock: &mut Dock, count: u8) {
    exchange(dock, IDENTITY);
    for _ in 0..count {
        exchange(dock, SVIDS);
    }
}

/// A request at our edition that is given and confirmed, without a laptop.
fn exchange(dock: &mut Dock, command: u8) {
    let request = Request {
        svid: PD_SID,
        command,
        position: 0,
    };
    let mut out = [0; ROOM];
    messages::write(PD_SID, command, REQ, 0, OURS.number(), &[], &mut out);
    dock.message(&out[..OBJECT_BYTES], &mut [])
        .and_then(|_| dock.policy(PolicyAnswer::Give, request, &[], &mut out))
        .and_then(|_| dock.sent())
        .expect("a loaded dock gives its identity and its list");
}
