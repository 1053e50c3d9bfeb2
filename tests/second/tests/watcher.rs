//! The watcher program and its generator, held against lines written by hand.

use second::call::Call;
use second::laptop::{Candidate, Laptop};
use second::side::Side;
use second::watcher::answers::print_answers;
use second::watcher::edges::edges;
use second::watcher::generator::generate;
use second::watcher::tally::Tally;
use second::watcher::{Event, Run};
use std::collections::BTreeSet;

const SEEDS: [u64; 4] = [0, 1, 2, u64::MAX];
const HEADING: &str = "event refusal sent pages held\n";
const KNOWN: [u8; 28] = [
    1, 2, 3, 4, 5, 6, 7, 0x40, 0x41, 0x42, 0x43, 0x44, 0x45, 0x46, 0x47, 0x48, 0x81, 0x82, 0x83,
    0x84, 0x85, 0x86, 0x87, 0xC0, 0xC1, 0xC2, 0xC7, 0xC8,
];
const CASE_L: &str = "1 0 FF00A801 0 -\n\
    2 0 - 0 -\n\
    3 0 FF00A002 0 -\n\
    4 0 - 1 -\n\
    5 0 FF01A003 1 -\n\
    6 0 - 1 1\n";

fn answers(mut stream: &[u8]) -> String {
    let mut output = Vec::new();
    print_answers(&mut stream, &mut output).unwrap();
    String::from_utf8(output).unwrap()
}

fn stream(events: &[Event]) -> Vec<u8> {
    let mut stream = Vec::new();
    for event in events {
        event.put(&mut stream).unwrap();
    }
    stream
}

/// A message event, as bytes.
fn message(objects: &[u32]) -> Vec<u8> {
    let words = objects.iter().flat_map(|word| word.to_le_bytes());
    [objects.len() as u8].into_iter().chain(words).collect()
}

fn case_l() -> Vec<u8> {
    [
        vec![0x40],
        message(&[0xFF00_A041, 1, 2, 3]),
        vec![0x40],
        message(&[0xFF00_A042, 0xFF01_0000]),
        vec![0x40],
        message(&[0xFF01_A043, 0x0000_0405]),
    ]
    .concat()
}

#[test]
fn case_l_is_as_document_01_prints_it() {
    let printed = answers(&case_l());
    assert_eq!(printed, [HEADING, CASE_L, "end 6 events\n"].concat());
}

#[test]
fn case_l_of_a_dock_that_sets_bit_5_is_the_same() {
    let stream = [
        vec![0x40],
        message(&[0xFF00_A061, 1, 2, 3]),
        vec![0x40],
        message(&[0xFF00_A062, 0xFF01_0000]),
        vec![0x40],
        message(&[0xFF01_A063, 0x0000_0405]),
    ]
    .concat();
    assert_eq!(answers(&stream), answers(&case_l()));
}

#[test]
fn enter_and_exit_after_case_l() {
    let after = [
        &[0x47, 0x01, 0xFF, 1][..],
        &[0x45],
        &[0x44],
        &[0x47, 0x01, 0xFF, 1],
        &message(&[0xFF01_A144]),
        &[0x47, 0x01, 0xFF, 1],
        &[0x41],
        &[0x48, 0x01, 0xFF, 7],
        &[0x46],
        &[0x48, 0x01, 0xFF, 1],
        &[0x42],
        &message(&[0xFF01_A145]),
    ]
    .concat();
    let lines = "7 0 FF01A104 1 1\n\
        8 9 - 1 1\n\
        9 0 - 1 1\n\
        10 0 FF01A104 1 1\n\
        11 0 - 1 1\n\
        12 13 - 1 1\n\
        13 13 - 1 1\n\
        14 0 FF01A705 1 1\n\
        15 0 - 1 1\n\
        16 0 FF01A105 1 1\n\
        17 7 - 1 1\n\
        18 0 - 1 1\n\
        end 18 events\n";
    let printed = answers(&[case_l(), after].concat());
    assert_eq!(printed, [HEADING, CASE_L, lines].concat());
}

#[test]
fn asking_again_after_case_l() {
    let after = [
        &[0x42, 0x41, 0x43, 0x43][..],
        &message(&[0xFF01_A106, 5]),
        &message(&[0xFF00_2041, 1, 2, 3, 4, 5, 6]),
    ]
    .concat();
    let lines = "7 0 - 1 1\n\
        8 0 FF00A801 0 1\n\
        9 0 - 0 1\n\
        10 9 - 0 1\n\
        11 0 - 0 1\n\
        12 2 - 0 1\n\
        end 12 events\n";
    let printed = answers(&[case_l(), after].concat());
    assert_eq!(printed, [HEADING, CASE_L, lines].concat());
}

#[test]
fn an_empty_list_is_held_as_0() {
    let stream = [
        vec![0x40],
        message(&[0xFF00_A041, 1, 2, 3]),
        vec![0x40],
        message(&[0xFF00_A082]),
    ]
    .concat();
    let lines = "1 0 FF00A801 0 -\n2 0 - 0 -\n3 0 FF00A002 0 -\n4 0 - 0 0\nend 4 events\n";
    assert_eq!(answers(&stream), [HEADING, lines].concat());
}

#[test]
fn positions_are_any_byte() {
    for position in [0, 2, 7, 8, 200, 255] {
        let enter = [0x47, 0x01, 0xFF, position];
        let exit = [0x48, 0x01, 0xFF, position];
        let printed = answers(&[&case_l()[..], &enter, &exit].concat());
        let refusal = if position == 7 { 13 } else { 12 };
        let lines = format!("7 12 - 1 1\n8 {refusal} - 1 1\nend 8 events\n");
        assert_eq!(printed, [HEADING, CASE_L, &lines].concat());
    }
}

#[test]
fn an_empty_stream_ends_at_once() {
    assert_eq!(answers(&[]), [HEADING, "end 0 events\n"].concat());
}

#[test]
fn any_other_kind_is_unknown_and_stops_the_answers() {
    for kind in (0..=u8::MAX).filter(|kind| !KNOWN.contains(kind)) {
        let printed = answers(&[0x40, kind, 0x40]);
        let lines = "1 0 FF00A801 0 -\nunknown kind after 1 events\n";
        assert_eq!(printed, [HEADING, lines].concat());
    }
}

#[test]
fn an_event_cut_anywhere_stops_the_answers() {
    let messages = (1..=7).map(|count| message(&vec![0xFF00_A001; count]));
    let modes = [0x47, 0x48].map(|kind| vec![kind, 1, 0, 1]);
    for event in messages.chain(modes) {
        for length in 1..event.len() {
            let printed = answers(&[&[0x40], &event[..length]].concat());
            let lines = "1 0 FF00A801 0 -\ncut after 1 events\n";
            assert_eq!(printed, [HEADING, lines].concat());
        }
    }
}

#[test]
fn the_input_counts_as_ended_after_a_million() {
    for after in [&[0x40][..], &[0xFF], &[0x47, 0x01]] {
        let printed = answers(&[&[0x42].repeat(1_000_000), after].concat());
        assert!(printed.ends_with("\n1000000 0 - 0 -\nend 1000000 events\n"));
    }
}

#[test]
fn generated_events_leave_nothing_out_and_come_back_from_bytes() {
    for seed in SEEDS {
        let events = generate(seed);
        let mut tally = Tally::default();
        events.iter().for_each(|event| tally.count(event));
        assert_eq!(tally.missing(), Vec::<String>::new());
        let stream = stream(&events);
        let mut input = &stream[..];
        for event in &events {
            assert_eq!(Event::take(&mut input).ok().as_ref(), Some(event));
        }
        assert!(input.is_empty());
        assert!(events.len() <= 30_000 && stream.len() <= 600_000);
    }
}

#[test]
fn the_same_seed_gives_the_same_events_and_another_does_not() {
    assert_eq!(generate(5), generate(5));
    assert_ne!(generate(5), generate(6));
}

/// Eleven refusals; 28 kinds in eleven waits; of each side eight states and three candidates in five
/// waits of the other, 16 requests, its lists, and with bit 5 Attention and three answers to each of
/// five commands, but for the NAK to Modes, and eight versions that are not read; lists of 0 to 72;
/// bit 5; of each side 14 things that two sides are needed for, and catalogues of both.
/// Of the editions of each side: Identity sent; at each four requests, Identity sent after it and two
/// sorts of Identity ACK, and beside each of the two others nine events; at each of the two below ours
/// four ends of Identity, three losses and three refusals of calls and of messages; 14; eight versions.
#[test]
fn nothing_counted_is_everything_missing() {
    let missing = Tally::default().missing().len();
    let of_side = 8 + 3 * 5 + 16 + 1 + 15 + 8;
    let of_editions = 1 + 3 * (4 + 1 + 2 + 2 * 9) + 2 * (4 + 3 + 3 + 3) + 1 + 8;
    let of_two_sides = 2 * 14 + 1;
    let expected = 11 + 28 * 11 + 2 * of_side + 73 + 1 + of_two_sides + 2 * of_editions;
    assert_eq!(missing, expected);
}

/// The side that an event concerns, and whether the other waits. A timer concerns the side that
/// waits, the partner if none does.
fn concerned(event: &Event, laptop: &Laptop) -> (Side, bool) {
    let waiting = laptop.awaited().map(|awaited| awaited.side);
    let side = event.side().or(waiting).unwrap_or(Side::Partner);
    (side, waiting == Some(side.other()))
}

/// The command awaited, 0 if none.
fn wait(laptop: &Laptop) -> u8 {
    laptop
        .awaited()
        .map_or(0, |awaited| awaited.request.command)
}

/// A sort of event, the side it concerns, whether the other waits, for which command, and a refusal.
type Reached = (&'static str, Side, bool, u8, u8);

/// Every refusal that a sort of event can get in a wait.
fn reachable() -> BTreeSet<Reached> {
    let mut reachable = BTreeSet::new();
    let mut put = |sort, waits: &[u8], refusals: &[u8]| {
        for &wait in waits {
            for side in Side::BOTH {
                let reached = |&refusal| (sort, side, false, wait, refusal);
                reachable.extend(refusals.iter().map(reached));
            }
        }
    };
    put("message", &[0, 1, 2, 3, 4, 5], &[0, 2, 3, 5, 6]);
    put("message", &[2], &[8, 14]);
    put("message", &[3], &[8]);
    put("asking", &[0], &[0, 13]);
    put("drop", &[0], &[0]);
    put("mode", &[0], &[0, 12, 13]);
    for sort in ["asking", "drop", "mode"] {
        put(sort, &[1, 2, 3, 4, 5], &[7]);
    }
    put("response", &[1, 2, 3], &[0]);
    put("response", &[0, 4, 5], &[9]);
    put("entry", &[4], &[0]);
    put("entry", &[0, 1, 2, 3, 5], &[9]);
    put("exit", &[5], &[0]);
    put("exit", &[0, 1, 2, 3, 4], &[9]);
    put("error", &[1, 2, 3, 4, 5], &[0]);
    put("error", &[0], &[9]);
    for sort in ["response", "entry", "exit", "error"] {
        reachable.remove(&(sort, Side::Cable, false, 0, 9));
    }
    for wait in 1..=5 {
        for side in Side::BOTH {
            let message = [0, 2, 3, 5, 6].map(|refusal| ("message", side, true, wait, refusal));
            let calls = ["asking", "drop", "mode"].map(|sort| (sort, side, true, wait, 7));
            reachable.extend(message.into_iter().chain(calls));
        }
    }
    reachable
}

fn sort(event: &Event) -> &'static str {
    match event {
        Event::Message { .. } => "message",
        Event::Call(Call::Next(_) | Call::StartOver(_)) => "asking",
        Event::Call(Call::Drop(_)) => "drop",
        Event::Call(Call::ResponseTimer) => "response",
        Event::Call(Call::EntryTimer) => "entry",
        Event::Call(Call::ExitTimer) => "exit",
        Event::Call(Call::ProtocolError) => "error",
        Event::Call(Call::Enter { .. }) | Event::Call(Call::Exit { .. }) => "mode",
    }
}

#[test]
fn generated_events_get_every_refusal_they_can_and_no_other() {
    for seed in SEEDS {
        let mut run = Run::default();
        let mut reached = BTreeSet::new();
        for event in generate(seed) {
            let (side, other_waits) = concerned(&event, run.laptop());
            let wait = wait(run.laptop());
            let refusal = run.take(&event).refusal;
            reached.insert((sort(&event), side, other_waits, wait, refusal));
        }
        let reachable = reachable();
        let differing: Vec<_> = reached.symmetric_difference(&reachable).collect();
        assert!(differing.is_empty(), "{differing:?}");
    }
}

#[test]
fn a_refusal_sends_nothing_and_leaves_the_laptop_alone_but_for_6_8_and_14() {
    let mut run = Run::default();
    for event in generate(3) {
        let before = run.laptop().clone();
        let outcome = run.take(&event);
        let laptop = run.laptop();
        if outcome.refusal != 0 {
            assert_eq!(outcome.sent, None);
            assert!(Side::BOTH
                .iter()
                .all(|&side| laptop.held(side) == before.held(side)));
        }
        let (side, _) = concerned(&event, &before);
        match outcome.refusal {
            0 => assert!(outcome.sent.is_none() || laptop.awaited_from(side).is_some()),
            8 | 14 => {
                assert_eq!(*laptop.candidate(side), Candidate::None);
                assert_eq!(wait(laptop), 0);
            }
            6 if *laptop != before => {
                assert!(matches!(before.candidate(side), Candidate::ListOpen(_)));
                assert_eq!(*laptop.candidate(side), Candidate::None);
                assert_eq!(before.awaited_from(side), None);
                assert_eq!(laptop.awaited(), before.awaited());
            }
            _ => assert_eq!(*laptop, before),
        }
    }
}

#[test]
fn no_mode_is_entered_while_there_is_a_candidate_or_identity_is_awaited() {
    let mut run = Run::default();
    for event in generate(4) {
        run.take(&event);
        let laptop = run.laptop();
        for side in Side::BOTH {
            assert!(laptop.page_count(side) <= 200);
            let awaited = laptop.awaited_from(side);
            let awaits_identity = awaited.is_some_and(|request| request.command == 1);
            let is_gathering = *laptop.candidate(side) != Candidate::None || awaits_identity;
            if let (true, Some(held)) = (is_gathering, laptop.held(side)) {
                let mut svids = held.svids.iter();
                assert!(svids.all(|&svid| laptop.entered_count(side, svid) == 0));
            }
        }
    }
}

#[test]
fn the_edges_of_the_input_end_as_they_should() {
    let edges = edges();
    let bodies = 2 * (4 * (1 + 2 + 3 + 4 + 5 + 6 + 7) + 2 * 3);
    assert_eq!(edges.len(), 1 + bodies + (256 - KNOWN.len()) + 2);
    for (name, stream) in &edges {
        let printed = answers(stream);
        let last = match &name[..] {
            "empty" => "end 0 events",
            "1000000_events" | "1000001_events" => "end 1000000 events",
            name if name.ends_with("_unknown") => "unknown kind after 1 events",
            _ => "cut after 1 events",
        };
        assert_eq!(printed.lines().last(), Some(last), "{name}");
    }
}
