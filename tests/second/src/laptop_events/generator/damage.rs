//! Messages whose bytes are no whole objects, or too many of them.

use super::{Event, Generator};
use crate::laptop_events::event::MOST_MESSAGE_BYTES;
use crate::messages::{MOST_OBJECTS, OBJECT_BYTES};
use crate::side::Side;

impl Generator {
    /// The message with some bytes less or more, or drawn bytes for any other event.
    pub(super) fn damaged(&mut self, event: &Event) {
        let sound = match event {
            Event::Message { bytes, .. } => bytes.len(),
            _ => 0,
        };
        let drawn = self.random.below(usize::from(MOST_MESSAGE_BYTES) + 1);
        let length = self
            .random
            .one_of(&[sound.saturating_sub(1), sound + 1, drawn]);
        if is_whole_objects(length) {
            return;
        }
        let mut bytes = match event {
            Event::Message { bytes, .. } => bytes.clone(),
            _ => Vec::new(),
        };
        bytes.resize_with(length, || self.random.byte());
        let side = event.side().unwrap_or(Side::Partner);
        self.push(Event::Message { side, bytes });
    }
}

fn is_whole_objects(length: usize) -> bool {
    length.is_multiple_of(OBJECT_BYTES) && (1..=MOST_OBJECTS).contains(&(length / OBJECT_BYTES))
}
