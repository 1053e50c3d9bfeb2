//! Both sides in one stream of laptop events, held against lines written by hand.

use second::laptop_events::answers::print_answers;

const HEADING: &str = "stream event side refusal sent output told awaited candidate pages held \
    edition candidate_run held_run catalogue report other_candidate other_pages other_held \
    other_edition\n";
const IDENTITY: [u32; 4] = [0xFF00_A041, 1, 2, 3];
const PAGE: [u32; 2] = [0xFF00_A042, 0xFF01_0000];
const MODES: [u32; 2] = [0xFF01_A043, 0x405];
const PARTNER: u8 = 0x01;
const CABLE: u8 = 0x81;
/// Both runs as they are at the start.
const RUNS: &str = "5F29F345 5F29F345";

fn answers(events: &[Vec<u8>]) -> String {
    let mut output = Vec::new();
    print_answers(&mut &events.concat()[..], &mut output).unwrap();
    String::from_utf8(output).unwrap()
}

fn message(kind: u8, objects: &[u32]) -> Vec<u8> {
    let words = objects.iter().flat_map(|word| word.to_le_bytes());
    let length = 4 * objects.len() as u8;
    [kind, length].into_iter().chain(words).collect()
}

#[test]
fn case_l_of_the_cable_while_the_partners_list_is_open() {
    let events = [
        vec![0x40],
        message(PARTNER, &IDENTITY),
        vec![0xC0, 0x40],
        message(PARTNER, &[0xFF00_A081]),
        message(CABLE, &IDENTITY),
        vec![0xC0],
        message(PARTNER, &PAGE),
        message(CABLE, &PAGE),
        vec![0xC0, 0x43, 0xC0],
        message(CABLE, &MODES),
        vec![0xCA, 24, 0, 0xC9, 0x01, 0xFF, 0x46],
    ];
    let lines = format!(
        "1 1 partner 0 01A800FF E113CD71 - partner:FF00:1:0 none 0 - 2.1 {RUNS} - - none 0 - 2.1\n\
        1 2 partner 0 - - - - open:0 0 - 2.0 {RUNS} - - none 0 - 2.1\n\
        1 3 cable 0 01A800FF E113CD71 - cable:FF00:1:0 none 0 - 2.1 {RUNS} - - open:0 0 - 2.0\n\
        1 4 partner 7 - 635B1845 - cable:FF00:1:0 open:0 0 - 2.0 {RUNS} - - none 0 - 2.1\n\
        1 5 partner 6 - - - cable:FF00:1:0 open:0 0 - 2.0 {RUNS} - - none 0 - 2.1\n\
        1 6 cable 0 - - - - open:0 0 - 2.0 {RUNS} - - open:0 0 - 2.0\n\
        1 7 cable 0 02A000FF A4E8F0BE - cable:FF00:2:0 open:0 0 - 2.0 {RUNS} - - open:0 0 - 2.0\n\
        1 8 partner 6 - - - cable:FF00:2:0 none 0 - 2.0 {RUNS} - - open:0 0 - 2.0\n\
        1 9 cable 0 - - - - done:1:0 1 - 2.0 {RUNS} - - none 0 - 2.0\n\
        1 10 cable 0 03A001FF C1D077C6 - cable:FF01:3:0 done:1:0 1 - 2.0 {RUNS} - - none 0 - 2.0\n\
        1 11 cable 0 - - - - done:1:0 1 - 2.0 {RUNS} - - none 0 - 2.0\n\
        1 12 cable 0 03A001FF C1D077C6 - cable:FF01:3:0 done:1:0 1 - 2.0 {RUNS} - - none 0 - 2.0\n\
        1 13 cable 0 - - - - none 1 1 2.0 0FDC1314 0FDC1314 - - none 0 - 2.0\n\
        1 14 cable 0 - 779FCB71 - - none 1 1 2.0 0FDC1314 0FDC1314 22:2ED34F69 - none 0 - 2.0\n\
        1 15 cable 0 - - - - none 1 1 2.0 0FDC1314 0FDC1314 - 0 none 0 - 2.0\n\
        1 16 partner 9 - - - - none 0 - 2.0 {RUNS} - - none 1 1 2.0\n\
        end 16 events\n"
    );
    assert_eq!(answers(&events), [HEADING, &lines].concat());
}

/// Lengths are those of later calls of their own side, the output buffer's too.
#[test]
fn lengths_are_of_one_side() {
    let events = [
        vec![0xCB, 3, 0xB0, 1, 0xB0, 1, 0xC0, 0x40],
        vec![0xCB, 32, 0xB0, 1, 0xAF, 1, 0xC0],
        message(CABLE, &IDENTITY),
        vec![0xCA, 0, 0, 0x4A, 0, 0],
        message(PARTNER, &IDENTITY),
    ];
    let lines = format!(
        "1 1 cable 0 - - - - none 0 - 2.1 {RUNS} - - none 0 - 2.1\n\
        1 2 cable 11 - 1D1DA4D9 - - none 0 - 2.1 {RUNS} - - none 0 - 2.1\n\
        1 3 partner 0 01A800FF E113CD71 - partner:FF00:1:0 none 0 - 2.1 {RUNS} - - none 0 - 2.1\n\
        1 4 cable 0 - - - partner:FF00:1:0 none 0 - 2.1 {RUNS} - - none 0 - 2.1\n\
        1 5 cable 11 - 635B1845 - partner:FF00:1:0 none 0 - 2.1 {RUNS} - - none 0 - 2.1\n\
        1 6 cable 11 - - - partner:FF00:1:0 none 0 - 2.1 {RUNS} - - none 0 - 2.1\n\
        1 7 cable 11 - 811C9DC5 - partner:FF00:1:0 none 0 - 2.1 {RUNS} - - none 0 - 2.1\n\
        1 8 partner 12 - 811C9DC5 - partner:FF00:1:0 none 0 - 2.1 {RUNS} - - none 0 - 2.1\n\
        1 9 partner 0 - - - - open:0 0 - 2.0 {RUNS} - - none 0 - 2.1\n\
        end 9 events\n"
    );
    assert_eq!(answers(&events), [HEADING, &lines].concat());
}

/// What policy is told is of the line's side: for a timer the one that waited.
#[test]
fn a_timer_is_told_of_the_side_that_waited() {
    let gathering = |added: u8| {
        [
            vec![0x40 + added],
            message(PARTNER + added, &IDENTITY),
            vec![0x40 + added],
            message(PARTNER + added, &PAGE),
            vec![0x40 + added],
            message(PARTNER + added, &MODES),
        ]
        .concat()
    };
    for (added, side) in [(0, "partner"), (0x80, "cable")] {
        let enter = vec![0x47 + added, 0x01, 0xFF, 1];
        let ends = [gathering(0), gathering(0x80), enter, vec![0x45, 0x44, 0x44]];
        let printed = answers(&ends);
        let held = "none 1 1 2.0 0FDC1314 0FDC1314";
        let lines = format!(
            "1 14 {side} 9 - - - {side}:FF01:4:1 {held} - - none 1 1 2.0\n\
            1 15 {side} 0 - - timer:FF01:4:1 - {held} - - none 1 1 2.0\n\
            1 16 partner 9 - - - - {held} - - none 1 1 2.0\n\
            end 16 events\n"
        );
        assert!(printed.ends_with(&lines), "{printed}");
    }
}
