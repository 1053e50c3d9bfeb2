//! Streams with bit 5 of each message's header the other way round: the answers are the same.

use second::messages::{flip_reserved, flip_reserved_of, has_reserved};
use second::side::Side;
use second::{dock_events, laptop_events, vectors, watcher};

const SEEDS: [u64; 3] = [1, 2, u64::MAX];

/// The stream, and its bytes with each item flipped, are answered with the same lines.
fn hold_same(
    streams: [Vec<u8>; 2],
    answer: impl Fn(&mut &[u8], &mut Vec<u8>) -> std::io::Result<()>,
) {
    assert_ne!(streams[0], streams[1]);
    let lines = streams.map(|stream| {
        let mut output = Vec::new();
        answer(&mut &stream[..], &mut output).unwrap();
        String::from_utf8(output).unwrap()
    });
    assert_eq!(lines[0], lines[1]);
}

#[test]
fn a_flipped_header_differs_in_bit_5_alone() {
    let mut bytes = [0x42, 0xA0, 0x00, 0xFF];
    flip_reserved(&mut bytes);
    assert_eq!(bytes, [0x62, 0xA0, 0x00, 0xFF]);
    assert!(has_reserved(&bytes));
    flip_reserved(&mut bytes);
    assert_eq!(bytes, [0x42, 0xA0, 0x00, 0xFF]);
    assert!(!has_reserved(&bytes) && !has_reserved(&[]));
    let mut objects = [0xFF00_A042, 7];
    flip_reserved_of(&mut objects);
    assert_eq!(objects, [0xFF00_A062, 7]);
}

#[test]
fn vectors_are_answered_the_same() {
    for seed in SEEDS {
        let mut streams = [Vec::new(), Vec::new()];
        for vector in vectors::generator::generate(seed) {
            vector.put(&mut streams[0]).unwrap();
            let flipped = vector.with_reserved_flipped();
            flipped.put(&mut streams[1]).unwrap();
        }
        hold_same(streams, |input, output| {
            vectors::answers::print_answers(input, output)
        });
    }
}

#[test]
fn the_dock_answers_the_same() {
    for seed in SEEDS {
        let mut streams = [Vec::new(), Vec::new()];
        for event in dock_events::generator::generate(seed) {
            event.put(&mut streams[0]).unwrap();
            let flipped = event.with_reserved_flipped();
            flipped.put(&mut streams[1]).unwrap();
        }
        hold_same(streams, |input, output| {
            dock_events::answers::print_answers(input, output)
        });
    }
}

#[test]
fn the_watcher_prints_the_same() {
    for seed in SEEDS {
        let mut streams = [Vec::new(), Vec::new()];
        for event in watcher::generator::generate(seed) {
            event.put(&mut streams[0]).unwrap();
            let flipped = event.with_reserved_flipped();
            flipped.put(&mut streams[1]).unwrap();
        }
        hold_same(streams, |input, output| {
            watcher::answers::print_answers(input, output)
        });
    }
}

#[test]
fn the_laptop_answers_the_same() {
    for seed in SEEDS {
        let events = laptop_events::generator::generate(seed);
        let flipped = events.iter().cloned();
        let flipped = flipped.map(laptop_events::Event::with_reserved_flipped);
        let streams = [events.clone(), flipped.collect()].map(|events| {
            let mut stream = Vec::new();
            laptop_events::put_streams(&[events], &mut stream).unwrap();
            stream
        });
        hold_same(streams, |input, output| {
            laptop_events::answers::print_answers(input, output)
        });
    }
}

#[test]
fn a_message_of_either_side_is_flipped() {
    for side in Side::BOTH {
        let objects = vec![0xFF00_A041, 1, 2, 3];
        let watched = watcher::Event::Message { side, objects };
        let watcher::Event::Message { objects, .. } = watched.with_reserved_flipped() else {
            panic!("a message stays one");
        };
        assert_eq!(objects, [0xFF00_A061, 1, 2, 3]);
        let bytes = vec![0x41, 0xA0, 0x00, 0xFF];
        let event = laptop_events::Event::Message { side, bytes };
        let bytes = vec![0x61, 0xA0, 0x00, 0xFF];
        let flipped = laptop_events::Event::Message { side, bytes };
        assert_eq!(event.with_reserved_flipped(), flipped);
    }
}
