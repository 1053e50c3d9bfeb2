//! The stream of dock events and its answers, held against lines written by hand.

use second::dock::Standing;
use second::dock_events::answers::print_answers;
use second::dock_events::generator::generate;
use second::dock_events::tally::Tally;
use second::dock_events::{Event, Run};
use std::collections::BTreeSet;

const SEEDS: [u64; 4] = [0, 1, 2, u64::MAX];
const HEADING: &str = "event refusal length buffer standing page count edition\n";

fn answers(mut stream: &[u8]) -> String {
    let mut output = Vec::new();
    print_answers(&mut stream, &mut output).unwrap();
    String::from_utf8(output).unwrap()
}

fn stream(events: &[Event]) -> Vec<u8> {
    let mut stream = Vec::new();
    for event in events {
        event.put(&mut stream).unwrap();
    }
    stream
}

/// Three identity objects and the SVIDs FF01 and 8087.
const LOAD: [u8; 19] = [
    0x20, 3, 2, 1, 0, 0, 0, 2, 0, 0, 0, 3, 0, 0, 0, 0x01, 0xFF, 0x87, 0x80,
];
const ASK_LIST: [u8; 5] = [0x01, 0x02, 0xA0, 0x00, 0xFF];
const GIVE_LIST: [u8; 6] = [0x21, 0x00, 0xFF, 2, 0, 0];
const ASK_MODES_AS_BYTES: [u8; 6] = [0x08, 4, 0x03, 0xA0, 0x01, 0xFF];
const GIVE_MODE: [u8; 10] = [0x21, 0x01, 0xFF, 3, 0, 1, 0x05, 0x04, 0x00, 0x00];
const NAK_MODES: [u8; 6] = [0x22, 0x01, 0xFF, 3, 0, 0];
const BUSY_MODES: [u8; 6] = [0x23, 0x01, 0xFF, 3, 0, 0];
/// Command 31 at position 3, SVID 1234, with an object.
const ASK_VENDOR: [u8; 9] = [0x02, 0x1F, 0xA3, 0x34, 0x12, 0, 0, 0, 0];
const SENT: [u8; 1] = [0x30];
const FAILED: [u8; 1] = [0x31];
const ROOM_12: [u8; 2] = [0x40, 12];
const ROOM_9: [u8; 2] = [0x40, 9];
const NO_ROOM: [u8; 2] = [0x40, 0];

#[test]
fn every_form_of_line_is_as_agreed() {
    let stream = [
        &ROOM_12[..],
        &LOAD,
        &ASK_LIST,
        &GIVE_LIST,
        &SENT,
        &SENT,
        &ROOM_9,
        &ASK_MODES_AS_BYTES,
        &GIVE_MODE,
        &NAK_MODES,
        &FAILED,
        &ASK_MODES_AS_BYTES,
        &BUSY_MODES,
        &ASK_VENDOR,
        &NO_ROOM,
        &ASK_VENDOR,
    ]
    .concat();
    let lines = "1 0 0 5A5A5A5A5A5A5A5A5A5A5A5A ready 0 0 2.1\n\
        2 0 0 5A5A5A5A5A5A5A5A5A5A5A5A ready 0 2 2.1\n\
        3 0 0 5A5A5A5A5A5A5A5A5A5A5A5A asking 0 2 2.0\n\
        4 0 12 42A000FF878001FF00000000 sending 0 2 2.0\n\
        5 0 0 5A5A5A5A5A5A5A5A5A5A5A5A ready 0 2 2.0\n\
        6 9 0 5A5A5A5A5A5A5A5A5A5A5A5A ready 0 2 2.0\n\
        7 0 0 5A5A5A5A5A5A5A5A5A ready 0 2 2.0\n\
        8 0 0 5A5A5A5A5A5A5A5A5A asking 0 2 2.0\n\
        9 0 8 43A001FF050400005A sending 0 2 2.0\n\
        10 9 0 5A5A5A5A5A5A5A5A5A sending 0 2 2.0\n\
        11 0 0 5A5A5A5A5A5A5A5A5A ready 0 2 2.0\n\
        12 0 0 5A5A5A5A5A5A5A5A5A asking 0 2 2.0\n\
        13 0 4 C3A001FF5A5A5A5A5A sending 0 2 2.0\n\
        14 0 4 9FA334125A5A5A5A5A sending 0 2 2.0\n\
        15 0 0 - sending 0 2 2.0\n\
        16 11 0 - sending 0 2 2.0\n\
        end 16 events\n";
    assert_eq!(answers(&stream), [HEADING, lines].concat());
}

#[test]
fn the_buffer_has_28_bytes_at_the_start() {
    let line = format!("1 9 0 {} ready 0 0 2.1\nend 1 events\n", "5A".repeat(28));
    assert_eq!(answers(&FAILED), [HEADING, &line].concat());
}

#[test]
fn a_confirmed_page_moves_the_page_of_the_line() {
    let mut load = vec![0x20, 3, 12];
    load.extend([0; 12]);
    load.extend((1..=12).flat_map(|svid: u16| svid.to_le_bytes()));
    let stream = [&load, &ASK_LIST[..], &GIVE_LIST, &SENT, &ASK_LIST].concat();
    let page = "42A000FF020001000400030006000500080007000A0009000C000B00";
    let unwritten = "5A".repeat(28);
    let lines = [
        format!("1 0 0 {unwritten} ready 0 12 2.1\n"),
        format!("2 0 0 {unwritten} asking 0 12 2.0\n"),
        format!("3 0 28 {page} sending 0 12 2.0\n"),
        format!("4 0 0 {unwritten} ready 1 12 2.0\n"),
        format!("5 0 0 {unwritten} asking 1 12 2.0\n"),
        "end 5 events\n".to_string(),
    ];
    assert_eq!(answers(&stream), [HEADING, &lines.concat()].concat());
}

#[test]
fn an_empty_stream_ends_at_once() {
    assert_eq!(answers(&[]), [HEADING, "end 0 events\n"].concat());
}

#[test]
fn any_other_kind_is_unknown_and_stops_the_answers() {
    let known = [
        1, 2, 3, 4, 5, 6, 7, 8, 0x20, 0x21, 0x22, 0x23, 0x30, 0x31, 0x40,
    ];
    for kind in (0..=u8::MAX).filter(|kind| !known.contains(kind)) {
        let printed = answers(&[&NO_ROOM[..], &[kind], &SENT].concat());
        let lines = "1 0 0 - ready 0 0 2.1\nunknown kind after 1 events\n";
        assert_eq!(printed, [HEADING, lines].concat());
    }
}

#[test]
fn an_event_cut_anywhere_stops_the_answers() {
    let events: [&[u8]; 6] = [
        &LOAD,
        &ASK_LIST,
        &GIVE_MODE,
        &ASK_MODES_AS_BYTES,
        &ASK_VENDOR,
        &ROOM_9,
    ];
    for event in events {
        for length in 1..event.len() {
            let printed = answers(&[&NO_ROOM, &event[..length]].concat());
            let lines = "1 0 0 - ready 0 0 2.1\ncut after 1 events\n";
            assert_eq!(printed, [HEADING, lines].concat());
        }
    }
}

#[test]
fn the_input_counts_as_ended_after_a_million() {
    for after in [&SENT[..], &[0xFF], &LOAD[..3]] {
        let printed = answers(&[&NO_ROOM.repeat(1_000_000), after].concat());
        assert!(printed.ends_with("\n1000000 0 0 - ready 0 0 2.1\nend 1000000 events\n"));
    }
}

#[test]
fn generated_events_leave_nothing_out_and_come_back_from_bytes() {
    for seed in SEEDS {
        let events = generate(seed);
        let mut tally = Tally::default();
        events.iter().for_each(|event| tally.count(event));
        assert_eq!(tally.missing(), Vec::<String>::new());
        let stream = stream(&events);
        let mut input = &stream[..];
        for event in &events {
            assert_eq!(Event::take(&mut input).ok().as_ref(), Some(event));
        }
        assert!(input.is_empty());
        assert!(events.len() <= 16_000 && stream.len() <= 600_000);
    }
}

#[test]
fn the_same_seed_gives_the_same_events_and_another_does_not() {
    assert_eq!(generate(5), generate(5));
    assert_ne!(generate(5), generate(6));
}

/// Nine refusals, 15 kinds in three standings, lists of 0 to 72, and with bit 5 every command but
/// Attention. Of each edition four sorts of answer, loading and three standings, and beside each of the
/// two others two replacements, three standings without room and four refusals; and 16 versions.
#[test]
fn nothing_counted_is_everything_missing() {
    let of_editions = 3 * (4 + 1 + 3 + 2 * (2 + 3 + 4)) + 16;
    let missing = Tally::default().missing().len();
    assert_eq!(missing, 9 + 15 * 3 + 73 + 31 + of_editions);
}

/// Every refusal that a sort of event can get in a standing.
fn reachable() -> BTreeSet<(&'static str, &'static str, u8)> {
    let rows: [(&str, &str, &[u8]); 15] = [
        ("message", "ready", &[0, 1, 2, 3, 5, 6, 11]),
        ("message", "asking", &[0, 1, 2, 3, 5, 6, 11]),
        ("message", "sending", &[0, 1, 2, 3, 5, 6, 11]),
        ("load", "ready", &[0, 10]),
        ("load", "asking", &[9]),
        ("load", "sending", &[9]),
        ("policy", "ready", &[9]),
        ("policy", "asking", &[0, 9, 10, 11]),
        ("policy", "sending", &[9]),
        ("end", "ready", &[9]),
        ("end", "asking", &[9]),
        ("end", "sending", &[0]),
        ("room", "ready", &[0]),
        ("room", "asking", &[0]),
        ("room", "sending", &[0]),
    ];
    rows.iter()
        .flat_map(|&(sort, standing, refusals)| {
            refusals
                .iter()
                .map(move |&refusal| (sort, standing, refusal))
        })
        .collect()
}

fn sort(event: &Event) -> &'static str {
    match event {
        Event::Objects { .. } | Event::Bytes { .. } => "message",
        Event::Load { .. } => "load",
        Event::Policy { .. } => "policy",
        Event::Sent | Event::Failed => "end",
        Event::Room { .. } => "room",
    }
}

#[test]
fn generated_events_get_every_refusal_they_can_and_no_other() {
    for seed in SEEDS {
        let mut run = Run::default();
        let mut reached = BTreeSet::new();
        for event in generate(seed) {
            let standing = run.standing();
            reached.insert((sort(&event), standing, run.take(&event).refusal));
        }
        assert_eq!(reached, reachable());
    }
}

#[test]
fn a_refusal_sends_nothing_and_leaves_the_dock_alone() {
    let mut run = Run::default();
    for event in generate(3) {
        let before = run.dock().clone();
        let outcome = run.take(&event);
        let (written, rest) = run.buffer().split_at(outcome.length);
        assert!(rest.iter().all(|&byte| byte == 0x5A));
        assert_eq!(written.len() % 4, 0);
        if outcome.refusal != 0 {
            assert_eq!((outcome.length, run.dock()), (0, &before));
        }
        let sending = matches!(run.dock().standing(), Standing::Sending { .. });
        assert!(outcome.length == 0 || sending);
    }
}
