//! Streams at the edges of the watcher's input: none, a body that is cut, a kind that there is not,
//! and as many events as are read, or one more.

use super::event::kinds;
use super::generator::generate;
use super::Event;
use crate::call::{Call, ENTER, EXIT};
use crate::messages::OBJECT_BYTES;
use crate::side::Side;

const MOST_EVENTS: usize = 1_000_000;
/// What fills a body.
const FILLING: u8 = 0x5A;

/// Each stream with its name, which can be that of a file.
pub fn edges() -> Vec<(String, Vec<u8>)> {
    let counts = [MOST_EVENTS, MOST_EVENTS + 1];
    let many = counts.map(|count| (format!("{count}_events"), events(count)));
    let mut edges = vec![("empty".to_string(), Vec::new())];
    let kinds = kinds();
    edges.extend(kinds.iter().flat_map(|&kind| cut(kind)));
    edges.extend(
        (0..=u8::MAX)
            .filter(|kind| !kinds.contains(kind))
            .map(unknown),
    );
    edges.extend(many);
    edges
}

/// The kind with each body that is too short, after a whole event.
fn cut(kind: u8) -> impl Iterator<Item = (String, Vec<u8>)> {
    let lengths = 0..body_length(kind);
    lengths.map(move |length| {
        let name = format!("kind_{kind:02X}_cut_after_{length}");
        let body = vec![FILLING; length];
        (
            name,
            [
                &bytes(&[Call::Drop(Side::Partner).into()])[..],
                &[kind],
                &body,
            ]
            .concat(),
        )
    })
}

fn body_length(kind: u8) -> usize {
    let (_, of_partner) = Side::of_kind(kind);
    match of_partner {
        1..=7 => usize::from(of_partner) * OBJECT_BYTES,
        ENTER | EXIT => 3,
        _ => 0,
    }
}

/// The kind between two events.
fn unknown(kind: u8) -> (String, Vec<u8>) {
    let event = bytes(&[Call::Drop(Side::Partner).into()]);
    let name = format!("kind_{kind:02X}_unknown");
    (name, [&event[..], &[kind], &event].concat())
}

/// So many generated events, over and over.
fn events(count: usize) -> Vec<u8> {
    let generated = generate(1);
    let whole = bytes(&generated).repeat(count / generated.len());
    let rest = bytes(&generated[..count % generated.len()]);
    [whole, rest].concat()
}

fn bytes(events: &[Event]) -> Vec<u8> {
    let mut bytes = Vec::new();
    for event in events {
        event.put(&mut bytes).expect("a Vec takes all");
    }
    bytes
}
