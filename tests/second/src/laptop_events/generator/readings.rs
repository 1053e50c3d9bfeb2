//! The calls that only read: the report of an SVID's entered modes, and writing the catalogue.

use super::{Event, Generator};
use crate::call::Call;
use crate::catalogue::MOST_CATALOGUE_BYTES;
use crate::laptop_events::event::{Lengths, MOST_CATALOGUE_ROOM};
use crate::side::Side;

const MOST_BYTES: u16 = MOST_CATALOGUE_BYTES as u16;

impl Generator {
    /// Writing and reports with nothing held, in buffers and runs of every sort.
    pub(super) fn nothing_held(&mut self, side: Side) {
        for room in [0, MOST_BYTES, MOST_CATALOGUE_ROOM + 1] {
            self.write_with_all_runs(side, room);
        }
        for svid in [0, 1] {
            self.push(Event::Report { side, svid });
        }
    }

    /// The catalogue in a buffer of just its length, in one that is a byte shorter, and in more.
    pub(super) fn catalogue_at_its_length(&mut self, side: Side) {
        let room = MOST_CATALOGUE_ROOM;
        let outcome = self.push(Event::WriteCatalogue { side, room });
        let bytes = outcome.catalogue.unwrap_or_default();
        let length = bytes.len() as u16;
        for room in [length - 1, length, length + 1] {
            self.push(Event::WriteCatalogue { side, room });
        }
        if self.random.is_rare() {
            self.write_with_all_runs(side, length);
        }
    }

    /// The candidate's run is not lent to writing, so only a short held run matters.
    pub(super) fn write_with_all_runs(&mut self, side: Side, room: u16) {
        let runs = [(440, 440), (0, 432), (432, 431), (432, 0)];
        for (candidate, held) in runs {
            let lengths = Lengths {
                candidate,
                held,
                ..Lengths::WHOLE
            };
            self.lend(side, lengths);
            self.push(Event::WriteCatalogue { side, room });
        }
        self.lend(side, Lengths::WHOLE);
    }

    /// A report, most often of the SVID that the event names, or the catalogue in a drawn buffer.
    pub(super) fn drawn_reading(&mut self, event: &Event) {
        let side = event.side().unwrap_or(Side::Partner);
        let svid = match event {
            Event::Call(Call::Enter { svid, .. } | Call::Exit { svid, .. }) => *svid,
            _ => self.held_or_drawn_svid(side),
        };
        self.push(Event::Report { side, svid });
        if self.random.is_rare() {
            let drawn = self.random.svid() % MOST_CATALOGUE_ROOM;
            let room = self.random.one_of(&[0, drawn, MOST_BYTES, u16::MAX]);
            self.push(Event::WriteCatalogue { side, room });
        }
    }

    fn held_or_drawn_svid(&mut self, side: Side) -> u16 {
        let drawn = self.random.svid();
        let held = self.run.laptop().held(side);
        match held.map(|held| &held.svids[..]) {
            None | Some([]) => drawn,
            Some(svids) => self.random.one_of(svids),
        }
    }
}
