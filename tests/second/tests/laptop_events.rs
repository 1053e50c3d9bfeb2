//! The stream of laptop events and its answers, held against lines written by hand.

use second::call::Call;
use second::laptop::{Candidate, Laptop};
use second::laptop_events::answers::print_answers;
use second::laptop_events::generator::{expected, generate, stored_stream, STREAMS};
use second::laptop_events::tally::Tally;
use second::laptop_events::{put_streams, Event, Item, Run};
use second::reached::Reached;
use second::side::Side;
use std::collections::BTreeSet;

const SEEDS: [u64; 4] = [0, 1, 2, u64::MAX];
const HEADING: &str = "stream event side refusal sent output told awaited candidate pages held \
    edition candidate_run held_run catalogue report other_candidate other_pages other_held \
    other_edition\n";
const KNOWN: [u8; 23] = [
    0x01, 0x40, 0x41, 0x42, 0x43, 0x44, 0x45, 0x46, 0x47, 0x48, 0x49, 0x4A, 0x4B, 0x4C, 0x81, 0xC0,
    0xC1, 0xC2, 0xC7, 0xC8, 0xC9, 0xCA, 0xCB,
];
/// What the line of any event tells of a side of which nothing has come.
const OTHER: &str = "none 0 - 2.1";
/// Both runs as they are at the start, and then with case L's mode; the Identity ACK is at 2.0. Sides
/// stand in no such line.
const CASE_L: &str = "\
    1 0 01A800FF E113CD71 - FF00:1:0 none 0 - 2.1 5F29F345 5F29F345 - -\n\
    2 0 - - - - open:0 0 - 2.0 5F29F345 5F29F345 - -\n\
    3 0 02A000FF A4E8F0BE - FF00:2:0 open:0 0 - 2.0 5F29F345 5F29F345 - -\n\
    4 0 - - - - done:1:0 1 - 2.0 5F29F345 5F29F345 - -\n\
    5 0 03A001FF C1D077C6 - FF01:3:0 done:1:0 1 - 2.0 5F29F345 5F29F345 - -\n\
    6 0 - - - - none 1 1 2.0 0FDC1314 0FDC1314 - -\n";
/// What the line of any event tells of the laptop after case L.
const HELD: &str = "none 1 1 2.0 0FDC1314 0FDC1314";
const FRESH: &str = "none 0 - 2.1 5F29F345 5F29F345";

const NEW_STREAM: [u8; 1] = [0x4C];
const NEXT: [u8; 1] = [0x40];
const DROP: [u8; 1] = [0x42];
const ENTRY_TIMER: [u8; 1] = [0x44];
const PROTOCOL_ERROR: [u8; 1] = [0x46];
const ENTER: [u8; 4] = [0x47, 0x01, 0xFF, 1];
const EXIT_ALL: [u8; 4] = [0x48, 0x01, 0xFF, 7];
const REPORT: [u8; 3] = [0x49, 0x01, 0xFF];

fn answers(mut stream: &[u8]) -> String {
    let mut output = Vec::new();
    print_answers(&mut stream, &mut output).unwrap();
    String::from_utf8(output).unwrap()
}

fn stream(events: &[Event]) -> Vec<u8> {
    let mut stream = Vec::new();
    put_streams(&[events.to_vec()], &mut stream).unwrap();
    stream
}

/// The heading, and these lines of a side in stream 1.
fn printed_lines(side: Side, lines: &[&str]) -> String {
    [HEADING, &in_stream(1, side, &lines.concat())].concat()
}

/// The lines of events with the number of their stream and their side; nothing comes of the other.
fn in_stream(number: usize, side: Side, lines: &str) -> String {
    let lines = lines.lines().map(|line| match line.split_once(' ') {
        Some((event, rest)) if event.parse::<usize>().is_ok() => {
            let mut fields: Vec<String> = rest.split(' ').map(str::to_string).collect();
            if fields[4] != "-" {
                fields[4] = format!("{side}:{}", fields[4]);
            }
            format!("{number} {event} {side} {} {OTHER}\n", fields.join(" "))
        }
        _ => format!("{line}\n"),
    });
    lines.collect()
}

/// The event for a side; timers, the protocol error and a new stream say none.
fn of(side: Side, event: &[u8]) -> Vec<u8> {
    let mut event = event.to_vec();
    if side == Side::Cable && !matches!(event[0], 0x43..=0x46 | 0x4C) {
        event[0] += 0x80;
    }
    event
}

/// A message event, as bytes.
fn message(objects: &[u32]) -> Vec<u8> {
    let words = objects.iter().flat_map(|word| word.to_le_bytes());
    let length = 4 * objects.len() as u8;
    [0x01, length].into_iter().chain(words).collect()
}

/// The catalogue is written to a buffer of so many bytes.
fn write_catalogue(room: u16) -> Vec<u8> {
    [&[0x4A][..], &room.to_le_bytes()].concat()
}

fn lengths(output: u8, candidate: u16, held: u16) -> Vec<u8> {
    let runs = [candidate.to_le_bytes(), held.to_le_bytes()].concat();
    [&[0x4B, output][..], &runs].concat()
}

fn case_l(side: Side) -> Vec<u8> {
    let events = [
        NEXT.to_vec(),
        message(&[0xFF00_A041, 1, 2, 3]),
        NEXT.to_vec(),
        message(&[0xFF00_A042, 0xFF01_0000]),
        NEXT.to_vec(),
        message(&[0xFF01_A043, 0x0000_0405]),
    ];
    events.map(|event| of(side, &event)).concat()
}

/// The answers to case L of each side and these events after it are its lines and these.
fn assert_after_case_l(events: &[&[u8]], lines: &str) {
    for side in Side::BOTH {
        let events: Vec<Vec<u8>> = events.iter().map(|event| of(side, event)).collect();
        let printed = answers(&[case_l(side), events.concat()].concat());
        assert_eq!(printed, printed_lines(side, &[CASE_L, lines]));
    }
}

#[test]
fn case_l_and_its_22_catalogue_bytes() {
    let events: &[&[u8]] = &[
        &write_catalogue(22),
        &write_catalogue(24),
        &write_catalogue(21),
        &write_catalogue(0),
    ];
    let lines = format!(
        "7 0 - 2ED34F69 - - {HELD} 22:2ED34F69 -\n\
        8 0 - 779FCB71 - - {HELD} 22:2ED34F69 -\n\
        9 11 - 3ABD95E1 - - {HELD} - -\n\
        10 11 - 811C9DC5 - - {HELD} - -\n\
        end 10 events\n"
    );
    assert_after_case_l(events, &lines);
}

#[test]
fn enter_and_exit_are_sent_told_and_reported() {
    let events: &[&[u8]] = &[
        &ENTER,
        &ENTRY_TIMER,
        &ENTER,
        &message(&[0xFF01_A184]),
        &ENTER,
        &message(&[0xFF01_A144]),
        &REPORT,
        &EXIT_ALL,
        &message(&[0xFF01_A7C5]),
        &EXIT_ALL,
        &PROTOCOL_ERROR,
        &NEXT,
    ];
    let lines = format!(
        "7 0 04A101FF 5CCE87A6 - FF01:4:1 {HELD} - -\n\
        8 0 - - timer:FF01:4:1 - {HELD} - -\n\
        9 0 04A101FF 5CCE87A6 - FF01:4:1 {HELD} - -\n\
        10 0 - - nak:FF01:4:1 - {HELD} - -\n\
        11 0 04A101FF 5CCE87A6 - FF01:4:1 {HELD} - -\n\
        12 0 - - - - {HELD} - -\n\
        13 0 - - - - {HELD} - 1\n\
        14 0 05A701FF F5580EB9 - FF01:5:7 {HELD} - -\n\
        15 0 - - busy:FF01:5:7 - {HELD} - -\n\
        16 0 05A701FF F5580EB9 - FF01:5:7 {HELD} - -\n\
        17 0 - - error:FF01:5:7 - {HELD} - -\n\
        18 13 - 635B1845 - - {HELD} - -\n\
        end 18 events\n"
    );
    assert_after_case_l(events, &lines);
}

#[test]
fn attention_is_told_with_its_object_or_a_zero() {
    let events = [
        message(&[0xFF01_A206]),
        message(&[0x8087_A606, 0x1234_ABCD]),
    ];
    let lines = format!(
        "1 0 - - attention:FF01:2:0:00000000 - {FRESH} - -\n\
        2 0 - - attention:8087:6:1:1234ABCD - {FRESH} - -\n\
        end 2 events\n"
    );
    for side in Side::BOTH {
        let stream = events.clone().map(|event| of(side, &event)).concat();
        assert_eq!(answers(&stream), printed_lines(side, &[&lines]));
    }
}

#[test]
fn messages_have_any_length_up_to_40_and_a_greater_length_counts_as_40() {
    let odd = [1, 3, 5, 29, 32, 40].map(|length: u8| {
        let bytes = vec![0xFF; usize::from(length)];
        [vec![0x01, length], bytes].concat()
    });
    let greater = [vec![0x01, 41], vec![0x40; 40], NEXT.to_vec()].concat();
    let stream = [&[0x01, 0][..], &odd.concat(), &greater].concat();
    let refused: Vec<String> = (1..=8)
        .map(|number| format!("{number} 1 - - - - {FRESH} - -\n"))
        .collect();
    let next = format!("9 0 01A800FF E113CD71 - FF00:1:0 {FRESH} - -\nend 9 events\n");
    let lines = [refused.concat(), next].concat();
    assert_eq!(answers(&stream), printed_lines(Side::Partner, &[&lines]));
}

#[test]
fn short_runs_and_buffers_are_refused_11() {
    let events: &[&[u8]] = &[
        &lengths(3, 440, 440),
        &NEXT,
        &DROP,
        &lengths(0, 431, 440),
        &ENTER,
        &write_catalogue(22),
        &lengths(5, 432, 431),
        &DROP,
        &[0x01, 0],
        &write_catalogue(22),
        &REPORT,
        &lengths(4, 432, 432),
        &ENTER,
    ];
    let lines = format!(
        "7 0 - - - - {HELD} - -\n\
        8 11 - 1D1DA4D9 - - {HELD} - -\n\
        9 0 - - - - {HELD} - -\n\
        10 0 - - - - {HELD} - -\n\
        11 11 - 811C9DC5 - - {HELD} - -\n\
        12 0 - 2ED34F69 - - {HELD} 22:2ED34F69 -\n\
        13 0 - - - - {HELD} - -\n\
        14 11 - - - - {HELD} - -\n\
        15 11 - - - - {HELD} - -\n\
        16 11 - 8771A69D - - {HELD} - -\n\
        17 0 - - - - {HELD} - 0\n\
        18 0 - - - - {HELD} - -\n\
        19 0 04A101FF B07E099E - FF01:4:1 {HELD} - -\n\
        end 19 events\n"
    );
    assert_after_case_l(events, &lines);
}

#[test]
fn greater_lengths_count_as_the_greatest() {
    let events: &[&[u8]] = &[
        &lengths(255, 441, 0xFFFF),
        &write_catalogue(2500),
        &write_catalogue(2501),
        &write_catalogue(0xFFFF),
        &NEXT,
    ];
    let lines = format!(
        "7 0 - - - - {HELD} - -\n\
        8 0 - DF59CE01 - - {HELD} 22:2ED34F69 -\n\
        9 0 - DF59CE01 - - {HELD} 22:2ED34F69 -\n\
        10 0 - DF59CE01 - - {HELD} 22:2ED34F69 -\n\
        11 0 01A800FF 391F5905 - FF00:1:0 none 0 1 2.1 0FDC1314 0FDC1314 - -\n\
        end 11 events\n"
    );
    assert_after_case_l(events, &lines);
}

#[test]
fn an_empty_stream_ends_at_once() {
    assert_eq!(
        answers(&[]),
        printed_lines(Side::Partner, &["end 0 events\n"])
    );
}

#[test]
fn any_other_kind_is_unknown_and_stops_the_answers() {
    for kind in (0..=u8::MAX).filter(|kind| !KNOWN.contains(kind)) {
        let printed = answers(&[&DROP[..], &[kind], &NEXT].concat());
        let lines = format!("1 0 - - - - {FRESH} - -\nunknown kind after 1 events\n");
        assert_eq!(printed, printed_lines(Side::Partner, &[&lines]));
    }
}

#[test]
fn an_event_cut_anywhere_stops_the_answers() {
    let events = [
        message(&[0xFF00_A041, 1, 2, 3]),
        vec![0x01, 3, 0, 0, 0],
        ENTER.to_vec(),
        EXIT_ALL.to_vec(),
        REPORT.to_vec(),
        write_catalogue(22),
        lengths(32, 440, 440),
    ];
    let twins = events.clone().map(|event| of(Side::Cable, &event));
    for event in events.into_iter().chain(twins) {
        for length in 1..event.len() {
            let printed = answers(&[&DROP, &event[..length]].concat());
            let lines = format!("1 0 - - - - {FRESH} - -\ncut after 1 events\n");
            assert_eq!(printed, printed_lines(Side::Partner, &[&lines]));
        }
    }
}

#[test]
fn the_input_counts_as_ended_after_a_million() {
    let printed = answers(&[&DROP.repeat(1_000_000)[..], &[0xFF]].concat());
    let last = format!("\n1 1000000 partner 0 - - - - {FRESH} - - {OTHER}\nend 1000000 events\n");
    assert!(printed.ends_with(&last));
}

#[test]
fn a_new_stream_has_a_fresh_laptop_and_counts_its_events_anew() {
    let short = lengths(3, 0, 0);
    let (partner, cable) = (Side::Partner, Side::Cable);
    let first = [
        case_l(partner),
        short,
        NEW_STREAM.to_vec(),
        NEW_STREAM.to_vec(),
    ]
    .concat();
    let streams = [first, case_l(cable)].concat();
    let first = format!("{CASE_L}7 0 - - - - {HELD} - -\n");
    let lines = [in_stream(1, partner, &first), in_stream(3, cable, CASE_L)].concat();
    let expected = [HEADING, &lines, "end 13 events\n"].concat();
    assert_eq!(answers(&streams), expected);
}

#[test]
fn a_new_stream_is_no_event() {
    let ends = [
        (&[][..], "end 0 events\n"),
        (&[0xFF], "unknown kind after 0 events\n"),
        (&[0x47, 0], "cut after 0 events\n"),
    ];
    for (end, last) in ends {
        let streams = [&NEW_STREAM.repeat(3)[..], end].concat();
        assert_eq!(answers(&streams), [HEADING, last].concat());
    }
}

#[test]
fn the_input_counts_as_ended_after_a_million_events_or_streams() {
    let events = [
        &NEW_STREAM[..],
        &DROP.repeat(1_000_000),
        &NEW_STREAM,
        &[0xFF],
    ]
    .concat();
    let last = format!("\n2 1000000 partner 0 - - - - {FRESH} - - {OTHER}\nend 1000000 events\n");
    assert!(answers(&events).ends_with(&last));
    let streams = [&NEW_STREAM.repeat(999_999)[..], &DROP, &NEW_STREAM, &DROP].concat();
    let lines = format!("1000000 1 partner 0 - - - - {FRESH} - - {OTHER}\nend 1 events\n");
    assert_eq!(answers(&streams), [HEADING, &lines].concat());
}

fn events_of(streams: &[Vec<Event>]) -> usize {
    streams.iter().map(Vec::len).sum()
}

#[test]
fn stored_streams_are_many_and_leave_nothing_out() {
    let streams: Vec<Vec<Event>> = (1..=STREAMS).map(stored_stream).collect();
    assert!(streams.len() >= 2000);
    let mut bytes = Vec::new();
    put_streams(&streams, &mut bytes).unwrap();
    let printed = answers(&bytes);
    assert!(events_of(&streams) < 105_000 && printed.len() <= 9_000_000);
    let mut reached = Reached::default();
    assert_eq!(reached.count_lines(&printed), events_of(&streams));
    let mut tally = Tally::default();
    streams.iter().for_each(|events| tally.count_stream(events));
    let missing = [
        reached.missing(&expected()),
        tally.missing(),
        tally.missing_lists(),
    ]
    .concat();
    assert_eq!(missing, Vec::<String>::new());
}

#[test]
fn a_stored_stream_alone_is_answered_as_among_all() {
    let streams: Vec<Vec<Event>> = (2..=5).map(stored_stream).collect();
    let mut bytes = Vec::new();
    put_streams(&streams, &mut bytes).unwrap();
    let printed = answers(&bytes);
    for (place, events) in streams.iter().enumerate() {
        let alone = answers(&stream(events));
        let alone = alone.lines().filter_map(|line| line.strip_prefix("1 "));
        let number = format!("{} ", place + 1);
        let among = printed
            .lines()
            .filter_map(|line| line.strip_prefix(&number));
        assert!(alone.eq(among));
    }
}

#[test]
fn generated_events_leave_nothing_out_and_come_back_from_bytes() {
    for seed in SEEDS {
        let events = generate(seed);
        let stream = stream(&events);
        let mut reached = Reached::default();
        assert_eq!(reached.count_lines(&answers(&stream)), events.len());
        assert_eq!(reached.missing(&expected()), Vec::<String>::new());
        let mut input = &stream[..];
        for event in &events {
            let item = Item::take(&mut input).ok();
            assert_eq!(item, Some(Item::Event(event.clone())));
        }
        assert!(input.is_empty());
        assert!(events.len() <= 42_000 && stream.len() <= 400_000);
    }
}

#[test]
fn the_same_seed_gives_the_same_events_and_another_does_not() {
    assert_eq!(generate(5), generate(5));
    assert_ne!(generate(5), generate(6));
}

/// The side that an event concerns, and whether the other waits. A timer concerns the side that
/// waits, the partner if none does.
fn concerned(event: &Event, laptop: &Laptop) -> (Side, bool) {
    let waiting = laptop.awaited().map(|awaited| awaited.side);
    let side = event.side().or(waiting).unwrap_or(Side::Partner);
    (side, waiting == Some(side.other()))
}

/// The command awaited, 0 if none.
fn wait(laptop: &Laptop) -> u8 {
    laptop
        .awaited()
        .map_or(0, |awaited| awaited.request.command)
}

fn sort(event: &Event) -> &'static str {
    match event {
        Event::Message { .. } => "message",
        Event::Call(Call::Next(_) | Call::StartOver(_)) => "asking",
        Event::Call(Call::Drop(_)) => "drop",
        Event::Call(Call::Enter { .. } | Call::Exit { .. }) => "mode",
        Event::Call(Call::ProtocolError) => "error",
        Event::Call(_) => "timer",
        Event::Report { .. } => "report",
        Event::WriteCatalogue { .. } => "write",
        Event::Lengths { .. } => "lengths",
    }
}

/// A sort of event, the side it concerns, whether the other waits, for which command, and a refusal.
type Outcome = (&'static str, Side, bool, u8, u8);

/// Every refusal that a sort of event can get in a wait.
fn reachable() -> BTreeSet<Outcome> {
    let mut reachable = BTreeSet::new();
    let mut put = |sort, waits: &[u8], refusals: &[u8]| {
        for &wait in waits {
            for side in Side::BOTH {
                let reached = |&refusal| (sort, side, false, wait, refusal);
                reachable.extend(refusals.iter().map(reached));
            }
        }
    };
    let all = [0, 1, 2, 3, 4, 5];
    put("message", &all, &[0, 1, 2, 3, 5, 6, 11]);
    put("message", &[2], &[8, 14]);
    put("message", &[3], &[8]);
    put("asking", &[0], &[0, 11, 13]);
    put("drop", &[0], &[0, 11]);
    put("mode", &[0], &[0, 11, 12, 13]);
    for sort in ["asking", "drop", "mode"] {
        put(sort, &[1, 2, 3, 4, 5], &[7, 11]);
    }
    put("timer", &[0, 1, 2, 3, 4, 5], &[9]);
    put("timer", &[1, 2, 3, 4, 5], &[0]);
    put("error", &[1, 2, 3, 4, 5], &[0]);
    put("error", &[0], &[9]);
    put("report", &all, &[0]);
    put("lengths", &all, &[0]);
    put("write", &all, &[0, 11]);
    put("write", &[0, 1, 2, 3], &[12]);
    for sort in ["timer", "error"] {
        reachable.remove(&(sort, Side::Cable, false, 0, 9));
    }
    for wait in 1..=5 {
        for side in Side::BOTH {
            let mut put = |sort, refusals: &[u8]| {
                let reached = |&refusal| (sort, side, true, wait, refusal);
                reachable.extend(refusals.iter().map(reached));
            };
            put("message", &[0, 1, 2, 3, 5, 6, 11]);
            for sort in ["asking", "drop", "mode"] {
                put(sort, &[7, 11]);
            }
        }
    }
    reachable
}

#[test]
fn generated_events_get_every_refusal_they_can_and_no_other() {
    for seed in SEEDS {
        let mut run = Run::default();
        let mut reached = BTreeSet::new();
        for event in generate(seed) {
            let (side, other_waits) = concerned(&event, run.laptop());
            let wait = wait(run.laptop());
            let refusal = run.take(&event).refusal;
            let reading = matches!(sort(&event), "report" | "lengths" | "write");
            if !(reading && other_waits) {
                reached.insert((sort(&event), side, other_waits, wait, refusal));
            }
        }
        let reachable = reachable();
        let differing: Vec<_> = reached.symmetric_difference(&reachable).collect();
        assert!(differing.is_empty(), "{differing:?}");
    }
}

#[test]
fn a_refusal_sends_writes_and_tells_nothing_and_leaves_all_alone_but_for_6_8_and_14() {
    let mut run = Run::default();
    for event in generate(3) {
        let before = run.laptop().clone();
        let runs = Side::BOTH.map(|side| run.runs(side).clone());
        let outcome = run.take(&event);
        let output = outcome.output.unwrap_or_default();
        if outcome.refusal == 0 {
            let written = outcome.catalogue.unwrap_or(outcome.sent);
            assert!(output.starts_with(&written));
            assert!(output[written.len()..].iter().all(|&byte| byte == 0xEE));
            continue;
        }
        assert!(output.iter().all(|&byte| byte == 0xEE));
        assert!(outcome.sent.is_empty() && outcome.told.is_none());
        assert_eq!(Side::BOTH.map(|side| run.runs(side).clone()), runs);
        if *run.laptop() != before {
            assert!([6, 8, 14].contains(&outcome.refusal));
            let side = event.side().unwrap();
            let laptop = run.laptop();
            assert_eq!(*laptop.candidate(side), Candidate::None);
            assert_eq!(laptop.awaited_from(side), None);
            for side in Side::BOTH {
                assert_eq!(laptop.held(side), before.held(side));
            }
        }
    }
}
