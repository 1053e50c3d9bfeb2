//! The stream of link events and its answers, held against lines written by hand.

use second::link_events::answers::print_answers;
use second::link_events::generator::{generate, stored_stream, STREAMS};
use second::link_events::tally::{all, Tally};
use second::link_events::{put_streams, Data, Event, Item, Start};

const HEADING: &str =
    "stream event side permitted refusal pages candidate held catalogue page lost \
    edition dock_edition other_pages other_candidate other_held other_edition\n";
/// The partner's kinds, each of which has a cable twin.
const TWINNED: [u8; 13] = [
    0x40, 0x41, 0x42, 0x47, 0x48, 0x50, 0x51, 0x52, 0x53, 0x54, 0x55, 0x56, 0x57,
];
/// The timer, a protocol error and a new stream.
const ALONE: [u8; 3] = [0x43, 0x46, 0x58];
const CABLE: u8 = 0x80;
/// The laptop's edition and the dock's.
const OURS: &str = "2.1 2.1";
/// A cable of which nothing happens.
const NO_CABLE: &str = "0 none - 2.1";
const NEW_STREAM: u8 = 0x58;
const DROP: u8 = 0x42;
const TIMER: u8 = 0x43;
const PROTOCOL_ERROR: u8 = 0x46;
const ENTER: [u8; 4] = [0x47, 0x01, 0xFF, 1];
/// Next, reaches, gives, arrives, sent.
const EXCHANGE: [u8; 5] = [0x40, 0x50, 0x52, 0x54, 0x56];
/// The same, but the dock hears that its answer failed.
const UNCONFIRMED: [u8; 5] = [0x40, 0x50, 0x52, 0x54, 0x57];

fn answers(mut stream: &[u8]) -> String {
    let mut output = Vec::new();
    print_answers(&mut stream, &mut output).unwrap();
    String::from_utf8(output).unwrap()
}

/// The heading, and these lines: those of an event have the number of their stream, 1, their side,
/// our edition, and a cable of which nothing happens filled in.
fn printed_lines(lines: &str) -> String {
    let lines = lines.lines().map(|line| match line.split_once(' ') {
        Some((event, fields)) if event.parse::<usize>().is_ok() => {
            format!("1 {event} partner {fields} {OURS} {NO_CABLE}\n")
        }
        _ => format!("{line}\n"),
    });
    [HEADING.to_string()].into_iter().chain(lines).collect()
}

/// Identity 7, 8, 9 and these SVIDs with one mode each; the dock on that page, the old or none, and
/// our edition.
fn side_start(svids: &[u16], mode: u32, page: u8, old: u8) -> Vec<u8> {
    let mut bytes = vec![3, 7, 0, 0, 0, 8, 0, 0, 0, 9, 0, 0, 0, svids.len() as u8];
    bytes.extend(svids.iter().flat_map(|svid| svid.to_le_bytes()));
    for _ in svids {
        bytes.push(1);
        bytes.extend(mode.to_le_bytes());
    }
    bytes.extend([page, old, 21]);
    bytes
}

/// The same start with another number for the dock's highest edition.
fn of_highest(number: u8, mut side_start: Vec<u8>) -> Vec<u8> {
    *side_start.last_mut().unwrap() = number;
    side_start
}

/// This is the partner's; the cable has an empty list, and the laptop nothing of it.
fn start(svids: &[u16], mode: u32, page: u8, old: u8) -> Vec<u8> {
    [side_start(svids, mode, page, old), side_start(&[], 0, 0, 0)].concat()
}

/// The cable's twin of each kind of the partner's.
fn twins(kinds: &[u8]) -> Vec<u8> {
    kinds.iter().map(|kind| kind + CABLE).collect()
}

/// Case L's SVID and mode.
fn one() -> Vec<u8> {
    start(&[0xFF01], 0x405, 0, 0)
}

#[test]
fn every_form_of_line_is_as_agreed() {
    let trouble = [0x40, 0x51, TIMER, TIMER, 0x55];
    let busy = [0x40, 0x40, 0x50, 0x53, 0x56, 0x54];
    let events = [&EXCHANGE[..], &trouble, &EXCHANGE, &busy, &EXCHANGE, &ENTER].concat();
    let lines = "1 permitted 0 0 none 1 E3C0FFF3 0 0\n\
        2 permitted 0 0 none 1 E3C0FFF3 0 0\n\
        3 permitted 0 0 none 1 E3C0FFF3 0 0\n\
        4 permitted 0 0 open:0 1 E3C0FFF3 0 0\n\
        5 permitted 0 0 open:0 1 E3C0FFF3 0 0\n\
        6 permitted 0 0 open:0 1 E3C0FFF3 0 0\n\
        7 permitted - 0 open:0 1 E3C0FFF3 0 0\n\
        8 permitted 0 0 open:0 1 E3C0FFF3 0 0\n\
        9 - - 0 open:0 1 E3C0FFF3 0 0\n\
        10 - - 0 open:0 1 E3C0FFF3 0 0\n\
        11 permitted 0 0 open:0 1 E3C0FFF3 0 0\n\
        12 permitted 0 0 open:0 1 E3C0FFF3 0 0\n\
        13 permitted 0 0 open:0 1 E3C0FFF3 0 0\n\
        14 permitted 0 1 done:1:0 1 E3C0FFF3 0 0\n\
        15 permitted 0 1 done:1:0 1 E3C0FFF3 0 0\n\
        16 permitted 0 1 done:1:0 1 E3C0FFF3 0 0\n\
        17 permitted 7 1 done:1:0 1 E3C0FFF3 0 0\n\
        18 permitted 0 1 done:1:0 1 E3C0FFF3 0 0\n\
        19 permitted 0 1 done:1:0 1 E3C0FFF3 0 0\n\
        20 permitted 0 1 done:1:0 1 E3C0FFF3 0 0\n\
        21 permitted 0 1 done:1:0 1 E3C0FFF3 0 0\n\
        22 permitted 0 1 done:1:0 1 E3C0FFF3 0 0\n\
        23 permitted 0 1 done:1:0 1 E3C0FFF3 0 0\n\
        24 permitted 0 1 done:1:0 1 E3C0FFF3 0 0\n\
        25 permitted 0 1 none 1 B1338CC3 0 0\n\
        26 permitted 0 1 none 1 B1338CC3 0 0\n\
        27 permitted 0 1 none 1 B1338CC3 0 0\n\
        end 27 events\n";
    let stream = [start(&[0xFF01], 0x405, 0, 1), events].concat();
    assert_eq!(answers(&stream), printed_lines(lines));
}

/// The cable holds the old catalogue, and the docks speak 1.0 and 2.0; both ask, and a timer or
/// protocol error is of the one that waits.
#[test]
fn lines_of_both_sides_are_as_agreed() {
    let start = [
        of_highest(10, side_start(&[0xFF01], 0x405, 0, 0)),
        of_highest(20, side_start(&[1, 2], 0xA, 0, 1)),
    ];
    let asked = [0xC0, 0x40, TIMER, TIMER, PROTOCOL_ERROR];
    let late = [0x40, 0x50, 0x52, PROTOCOL_ERROR, 0xC0, 0x54, 0xC2];
    let opened = [&twins(&EXCHANGE)[..], &EXCHANGE, &late, &[TIMER]].concat();
    let lines = "1 1 cable permitted 0 0 none 1 E3C0FFF3 0 0 2.1 2.0 0 none - 2.1\n\
        1 2 partner permitted 7 0 none - - 0 0 2.1 1.0 0 none 1 2.1\n\
        1 3 cable permitted 0 0 none 1 E3C0FFF3 0 0 2.1 2.0 0 none - 2.1\n\
        1 4 partner - - 0 none - - 0 0 2.1 1.0 0 none 1 2.1\n\
        1 5 partner permitted 9 0 none - - 0 0 2.1 1.0 0 none 1 2.1\n\
        1 6 cable permitted 0 0 none 1 E3C0FFF3 0 0 2.1 2.0 0 none - 2.1\n\
        1 7 cable permitted 0 0 none 1 E3C0FFF3 0 0 2.1 2.0 0 none - 2.1\n\
        1 8 cable permitted 0 0 none 1 E3C0FFF3 0 0 2.1 2.0 0 none - 2.1\n\
        1 9 cable permitted 0 0 open:0 1 E3C0FFF3 0 0 2.0 2.0 0 none - 2.1\n\
        1 10 cable permitted 0 0 open:0 1 E3C0FFF3 0 0 2.0 2.0 0 none - 2.1\n\
        1 11 partner permitted 0 0 none - - 0 0 2.1 1.0 0 open:0 1 2.0\n\
        1 12 partner permitted 0 0 none - - 0 0 2.1 1.0 0 open:0 1 2.0\n\
        1 13 partner permitted 0 0 none - - 0 0 2.1 1.0 0 open:0 1 2.0\n\
        1 14 partner permitted 0 0 open:0 - - 0 0 1.0 1.0 0 open:0 1 2.0\n\
        1 15 partner permitted 0 0 open:0 - - 0 0 1.0 1.0 0 open:0 1 2.0\n\
        1 16 partner permitted 0 0 open:0 - - 0 0 1.0 1.0 0 open:0 1 2.0\n\
        1 17 partner permitted 0 0 open:0 - - 0 0 1.0 1.0 0 open:0 1 2.0\n\
        1 18 partner permitted 0 0 open:0 - - 0 0 1.0 1.0 0 open:0 1 2.0\n\
        1 19 partner permitted 0 0 open:0 - - 0 0 1.0 1.0 0 open:0 1 2.0\n\
        1 20 cable permitted 0 0 open:0 1 E3C0FFF3 0 0 2.0 2.0 0 open:0 - 1.0\n\
        1 21 partner permitted 6 0 none - - 0 0 1.0 1.0 0 open:0 1 2.0\n\
        1 22 cable permitted 7 0 open:0 1 E3C0FFF3 0 0 2.0 2.0 0 none - 1.0\n\
        1 23 cable permitted 0 0 open:0 1 E3C0FFF3 0 0 2.0 2.0 0 none - 1.0\n\
        end 23 events\n";
    let stream = [start.concat(), asked.to_vec(), opened].concat();
    assert_eq!(answers(&stream), [HEADING, lines].concat());
}

#[test]
fn the_cable_s_lines_are_the_partner_s_with_the_sides_exchanged() {
    let [partner, cable] = [
        side_start(&[0xFF01], 0x405, 0, 1),
        side_start(&[1, 2], 0xA, 0, 0),
    ];
    let events = [EXCHANGE.repeat(3), vec![0x40, TIMER]].concat();
    let printed = answers(&[&partner[..], &cable, &events].concat());
    let kinds = events.iter().map(|&kind| match kind {
        TIMER => TIMER,
        kind => kind + CABLE,
    });
    let exchanged = [cable, partner, kinds.collect()].concat();
    assert_eq!(answers(&exchanged), printed.replace("partner", "cable"));
}

#[test]
fn case_11_has_one_confirmation_lost_and_three_pages() {
    let svids: Vec<u16> = (1..=13).collect();
    let pages = [&EXCHANGE[..], &UNCONFIRMED, &EXCHANGE, &EXCHANGE].concat();
    let stream = [start(&svids, 0xA, 5, 0), pages, EXCHANGE.repeat(13)].concat();
    let printed = answers(&stream);
    let lines: Vec<&str> = printed.lines().collect();
    for (event, fields) in [
        (1, "0 none - - 1 0"),
        (2, "0 none - - 0 0"),
        (9, "1 open:12 - - 0 0"),
        (10, "1 open:12 - - 0 1"),
        (14, "2 open:12 - - 0 1"),
        (15, "2 open:12 - - 1 1"),
        (19, "3 done:13:0 - - 1 1"),
        (83, "3 done:13:12 - - 1 1"),
        (84, "3 none 13 C8C7028F 1 1"),
    ] {
        let line = format!("1 {event} partner permitted 0 {fields} {OURS} {NO_CABLE}");
        assert_eq!(lines[event], line);
    }
    assert_eq!(lines[86], "end 85 events");
}

#[test]
fn an_empty_list_is_held_after_its_nak() {
    let stream = [start(&[], 0, 0, 0), EXCHANGE.repeat(2)].concat();
    let printed = answers(&stream);
    let last =
        "1 10 partner permitted 0 0 none 0 414E757C 0 0 2.1 2.1 0 none - 2.1\nend 10 events\n";
    assert!(printed.ends_with(last));
}

#[test]
fn a_start_without_events_ends_at_once() {
    assert_eq!(answers(&one()), [HEADING, "end 0 events\n"].concat());
}

#[test]
fn data_of_either_side_that_is_cut_or_breaks_a_limit_is_bad() {
    let bad = [HEADING, "bad dock data\n"].concat();
    for length in 0..one().len() {
        assert_eq!(answers(&one()[..length]), bad);
    }
    let side = side_start(&[0xFF01], 0x405, 0, 0);
    let [identity, modes, old, highest] = [0, 16, side.len() - 2, side.len() - 1];
    assert_eq!(side[modes - 2..=modes], [0x01, 0xFF, 1]);
    let bytes = [
        (identity, 2),
        (identity, 7),
        (modes, 0),
        (modes, 7),
        (old, 2),
        (highest, 0),
        (highest, 11),
        (highest, 22),
        (highest, 255),
    ];
    let broken = bytes.map(|(place, byte)| {
        let mut side = side.clone();
        side[place] = byte;
        side
    });
    let seventy_three: Vec<u16> = (1..=73).collect();
    let lists = [&[0][..], &[5, 0], &[5, 5], &seventy_three];
    let lists = lists.map(|svids| side_start(svids, 1, 0, 0));
    for broken in broken.iter().chain(&lists) {
        for [partner, cable] in [[broken, &side], [&side, broken]] {
            let stream = [&partner[..], cable, &[1; 64]].concat();
            assert_eq!(answers(&stream), bad);
        }
    }
}

#[test]
fn any_other_kind_is_unknown_and_stops_the_answers() {
    let known = [&TWINNED[..], &twins(&TWINNED), &ALONE].concat();
    assert_eq!(known.len(), 29);
    for kind in (0..=u8::MAX).filter(|kind| !known.contains(kind)) {
        let printed = answers(&[&one()[..], &[DROP, kind, DROP]].concat());
        let lines = "1 permitted 0 0 none - - 0 0\nunknown kind after 1 events\n";
        assert_eq!(printed, printed_lines(lines));
    }
}

#[test]
fn an_event_cut_anywhere_stops_the_answers() {
    for kind in [0x47, 0x48, 0xC7, 0xC8] {
        for length in 1..4 {
            let event = [kind, 0x01, 0xFF, 1];
            let printed = answers(&[&one()[..], &[DROP], &event[..length]].concat());
            let lines = "1 permitted 0 0 none - - 0 0\ncut after 1 events\n";
            assert_eq!(printed, printed_lines(lines));
        }
    }
}

#[test]
fn the_input_counts_as_ended_after_a_million() {
    let printed = answers(&[one(), vec![DROP; 1_000_001]].concat());
    let last =
        "\n1 1000000 partner permitted 0 0 none - - 0 0 2.1 2.1 0 none - 2.1\nend 1000000 events\n";
    assert!(printed.ends_with(last));
}

#[test]
fn a_new_stream_has_its_own_start_and_counts_its_events_anew() {
    let empty = start(&[], 0, 0, 0);
    let old = start(&[0xFF01], 0x405, 0, 1);
    let streams = [
        [&empty[..], &EXCHANGE.repeat(2), &[NEW_STREAM]].concat(),
        [&empty[..], &[NEW_STREAM]].concat(),
        [&old[..], &[DROP]].concat(),
    ]
    .concat();
    let printed = answers(&streams);
    assert!(
        printed.contains(" 0 0 none 0 414E757C 0 0 2.1 2.1 0 none - 2.1\n3 1 partner permitted")
    );
    let last =
        "\n3 1 partner permitted 0 1 none 1 E3C0FFF3 0 0 2.1 2.1 0 none - 2.1\nend 11 events\n";
    assert!(printed.ends_with(last));
}

#[test]
fn bad_data_of_any_stream_is_the_last_line() {
    for length in 0..one().len() {
        let streams = [&one()[..], &[DROP, NEW_STREAM], &one()[..length]].concat();
        let lines = "1 permitted 0 0 none - - 0 0\nbad dock data\n";
        assert_eq!(answers(&streams), printed_lines(lines));
    }
}

#[test]
fn stored_streams_are_many_and_leave_nothing_out() {
    let streams: Vec<(Start, Vec<Event>)> = (1..=STREAMS).map(stored_stream).collect();
    assert!(streams.len() >= 1000);
    let mut tally = Tally::default();
    for (start, events) in &streams {
        assert_eq!(tally.count_stream(start, events), Ok(()));
    }
    assert_eq!(tally.missing(&all()), Vec::<String>::new());
    let mut bytes = Vec::new();
    put_streams(&streams, &mut bytes).unwrap();
    let events: usize = streams.iter().map(|(_, events)| events.len()).sum();
    let printed = answers(&bytes);
    assert!(events <= 125_000 && printed.len() <= 8_500_000);
    assert!(printed.ends_with(&format!("\nend {events} events\n")));
}

#[test]
fn generated_streams_come_back_from_bytes_and_are_answered_to_their_end() {
    for seed in [0, 1, 12, 72, u64::MAX] {
        let (start, events) = generate(seed);
        let mut stream = Vec::new();
        put_streams(&[(start.clone(), events.clone())], &mut stream).unwrap();
        let mut input = &stream[..];
        assert_eq!(Start::take(&mut input), Ok(start));
        for event in &events {
            assert_eq!(Item::take(&mut input).ok(), Some(Item::Event(*event)));
        }
        assert!(input.is_empty() && stream.len() <= 20_000);
        let last = format!("\nend {} events\n", events.len());
        assert!(answers(&stream).ends_with(&last));
    }
}

#[test]
fn the_same_seed_gives_the_same_stream_and_another_does_not() {
    assert_eq!(generate(5), generate(5));
    assert_ne!(generate(5), generate(5 + 73));
}

#[test]
fn the_old_catalogue_is_of_another_dock() {
    let old = Data::old();
    assert_eq!(
        (&old.svids[..], &old.modes[0][..]),
        (&[0x1234][..], &[0x55][..])
    );
    assert_eq!(old.modes_of(0x1234), Some(&[0x55][..]));
    assert_eq!(old.modes_of(0xFF01), None);
}
