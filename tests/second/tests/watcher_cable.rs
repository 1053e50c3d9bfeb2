//! The watcher's kinds of the cable (02, R-4), held against lines written by hand.

use second::watcher::answers::print_answers;
use second::watcher::edges::edges;

const HEADING: &str = "event refusal sent pages held\n";
const CASE_L: &str = "1 0 FF00A801 0 -\n\
    2 0 - 0 -\n\
    3 0 FF00A002 0 -\n\
    4 0 - 1 -\n\
    5 0 FF01A003 1 -\n\
    6 0 - 1 1\n";
const IDENTITY: [u32; 4] = [0xFF00_A041, 1, 2, 3];
const PAGE: [u32; 2] = [0xFF00_A042, 0xFF01_0000];
const MODES: [u32; 2] = [0xFF01_A043, 0x405];

fn answers(mut stream: &[u8]) -> String {
    let mut output = Vec::new();
    print_answers(&mut stream, &mut output).unwrap();
    String::from_utf8(output).unwrap()
}

/// A message of the partner, or with 0x80 added of the cable.
fn message(added: u8, objects: &[u32]) -> Vec<u8> {
    let words = objects.iter().flat_map(|word| word.to_le_bytes());
    let kind = objects.len() as u8 + added;
    [kind].into_iter().chain(words).collect()
}

fn partner(objects: &[u32]) -> Vec<u8> {
    message(0, objects)
}

fn cable(objects: &[u32]) -> Vec<u8> {
    message(0x80, objects)
}

fn case_l_of_cable() -> Vec<u8> {
    let next = vec![0xC0];
    [
        next.clone(),
        cable(&IDENTITY),
        next.clone(),
        cable(&PAGE),
        next,
        cable(&MODES),
    ]
    .concat()
}

#[test]
fn case_l_of_the_cable_prints_the_same() {
    let printed = answers(&case_l_of_cable());
    assert_eq!(printed, [HEADING, CASE_L, "end 6 events\n"].concat());
}

#[test]
fn case_l_of_the_cable_while_the_partners_list_is_open() {
    let stream = [
        vec![0x40],
        partner(&IDENTITY),
        vec![0xC0],
        cable(&IDENTITY),
        vec![0xC0, 0x40],
        partner(&[0xFF00_A082]),
        cable(&PAGE),
        vec![0xC0, 0x43, 0xC0],
        cable(&MODES),
        vec![0x40, 0xC2],
        cable(&[0xFF00_A042, 0x0001_0000]),
        partner(&[0xFF00_A082]),
    ];
    let lines = "1 0 FF00A801 0 -\n\
        2 0 - 0 -\n\
        3 0 FF00A801 0 -\n\
        4 0 - 0 -\n\
        5 0 FF00A002 0 -\n\
        6 7 - 0 -\n\
        7 6 - 0 -\n\
        8 0 - 1 -\n\
        9 0 FF01A003 1 -\n\
        10 0 - 0 -\n\
        11 0 FF01A003 1 -\n\
        12 0 - 1 1\n\
        13 0 FF00A002 0 -\n\
        14 7 - 1 1\n\
        15 6 - 1 1\n\
        16 0 - 0 0\n\
        end 16 events\n";
    assert_eq!(answers(&stream.concat()), [HEADING, lines].concat());
}

/// Enter, exit, start over and drop of the cable; a timer's line tells of the partner, of which
/// nothing has come, though the cable waited.
#[test]
fn every_call_of_the_cable_after_case_l() {
    let after = [
        &[0x47, 0x01, 0xFF, 1][..],
        &[0xC7, 0x01, 0xFF, 1],
        &[0x44],
        &[0xC7, 0x01, 0xFF, 1],
        &cable(&[0xFF01_A144]),
        &[0xC1],
        &[0x40],
        &[0x46],
        &[0xC8, 0x01, 0xFF, 7],
        &[0x45],
        &[0xC8, 0x01, 0xFF, 1],
        &cable(&[0xFF01_A145]),
        &[0xC1],
        &cable(&IDENTITY),
        &[0xC2, 0xC0],
    ]
    .concat();
    let lines = "7 12 - 0 -\n\
        8 0 FF01A104 1 1\n\
        9 0 - 0 -\n\
        10 0 FF01A104 1 1\n\
        11 0 - 1 1\n\
        12 13 - 1 1\n\
        13 0 FF00A801 0 -\n\
        14 0 - 0 -\n\
        15 0 FF01A705 1 1\n\
        16 0 - 0 -\n\
        17 0 FF01A105 1 1\n\
        18 0 - 1 1\n\
        19 0 FF00A801 0 1\n\
        20 0 - 0 1\n\
        21 0 - 0 1\n\
        22 0 FF00A801 0 1\n\
        end 22 events\n";
    let printed = answers(&[case_l_of_cable(), after].concat());
    assert_eq!(printed, [HEADING, CASE_L, lines].concat());
}

#[test]
fn timers_and_the_protocol_error_have_no_twins() {
    let edges = edges();
    for kind in [0x80, 0x88, 0xBF, 0xC3, 0xC4, 0xC5, 0xC6, 0xC9, 0xFF] {
        let printed = answers(&[0xC0, kind, 0xC0]);
        let lines = "1 0 FF00A801 0 -\nunknown kind after 1 events\n";
        assert_eq!(printed, [HEADING, lines].concat());
        let name = format!("kind_{kind:02X}_unknown");
        assert!(edges.iter().any(|(edge, _)| *edge == name));
    }
}

#[test]
fn an_event_of_the_cable_cut_anywhere_stops_the_answers() {
    let edges = edges();
    let messages = (1..=7).map(|count| cable(&vec![0xFF00_A001; count]));
    let modes = [0xC7, 0xC8].map(|kind| vec![kind, 1, 0, 1]);
    for event in messages.chain(modes) {
        for length in 1..event.len() {
            let printed = answers(&[&[0xC0][..], &event[..length]].concat());
            let lines = "1 0 FF00A801 0 -\ncut after 1 events\n";
            assert_eq!(printed, [HEADING, lines].concat());
            let name = format!("kind_{:02X}_cut_after_{}", event[0], length - 1);
            assert!(edges.iter().any(|(edge, _)| *edge == name));
        }
    }
}

#[test]
fn one_million_events_are_read_of_both_sides_together() {
    let stream = [&[0x42, 0xC2].repeat(500_000)[..], &[0xFF]].concat();
    let printed = answers(&stream);
    assert!(printed.ends_with("\n1000000 0 - 0 -\nend 1000000 events\n"));
}
