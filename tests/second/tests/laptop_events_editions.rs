//! Editions of both sides in streams of laptop events (02, R-5), held against lines and headers written
//! by hand.

use second::laptop_events::answers::print_answers;

const RUNS: &str = "5F29F345 5F29F345";
const RUNS_HELD: &str = "0FDC1314 0FDC1314";
const PARTNER: u8 = 0x01;
const CABLE: u8 = 0x81;
const CABLE_TWIN: u8 = 0x80;

const NEXT: [u8; 1] = [0x40];
const START_OVER: [u8; 1] = [0x41];
const DROP: [u8; 1] = [0x42];
const RESPONSE_TIMER: [u8; 1] = [0x43];
const PROTOCOL_ERROR: [u8; 1] = [0x46];
const ENTER: [u8; 4] = [0x47, 0x01, 0xFF, 1];
const EXIT: [u8; 4] = [0x48, 0x01, 0xFF, 1];
const SHORT_OUTPUT: [u8; 6] = [0x4B, 3, 0xB8, 1, 0xB8, 1];
const SHORT_RUN: [u8; 6] = [0x4B, 32, 0xAF, 1, 0xB8, 1];
const WHOLE: [u8; 6] = [0x4B, 32, 0xB8, 1, 0xB8, 1];
/// Of an enter of the mode, as it is sent at each edition.
const AT_1_0: &str = "048101FF";
const AT_2_0: &str = "04A101FF";
const AT_2_1: &str = "04A901FF";

fn answers(stream: &[u8]) -> Vec<String> {
    let mut output = Vec::new();
    print_answers(&mut &stream[..], &mut output).unwrap();
    let output = String::from_utf8(output).unwrap();
    output.lines().map(str::to_string).collect()
}

fn message(kind: u8, objects: &[u32]) -> Vec<u8> {
    let words = objects.iter().flat_map(|word| word.to_le_bytes());
    let length = 4 * objects.len() as u8;
    [kind, length].into_iter().chain(words).collect()
}

fn from_partner(objects: &[u32]) -> Vec<u8> {
    message(PARTNER, objects)
}

fn identity(header: u32) -> Vec<u8> {
    from_partner(&[header, 1, 2, 3])
}

/// Case L with a dock of the first edition.
fn held_at_1_0() -> Vec<u8> {
    [
        &NEXT[..],
        &identity(0xFF00_8041),
        &NEXT,
        &from_partner(&[0xFF00_8042, 0xFF01_0000]),
        &NEXT,
        &from_partner(&[0xFF01_8043, 0x405]),
    ]
    .concat()
}

/// Every kind of the partner's event, or its cable twin; a timer and a protocol error have none.
fn twin(mut event: Vec<u8>) -> Vec<u8> {
    if !(0x43..=0x46).contains(&event[0]) {
        event[0] += CABLE_TWIN;
    }
    event
}

#[test]
fn each_side_is_asked_at_the_edition_of_its_own_dock() {
    let events = [
        NEXT.to_vec(),
        message(PARTNER, &[0xFF00_9841, 1, 2, 3]),
        twin(NEXT.to_vec()),
        message(CABLE, &[0xFF00_B841, 1, 2, 3]),
        NEXT.to_vec(),
        message(PARTNER, &[0xFF00_A842, 0xFF01_0000]),
        twin(NEXT.to_vec()),
        message(CABLE, &[0xFF00_8042, 0xFF01_0000]),
        NEXT.to_vec(),
        message(PARTNER, &[0xFF01_A043, 0x405]),
        NEXT.to_vec(),
        message(PARTNER, &[0xFF00_80C1]),
        ENTER.to_vec(),
        message(PARTNER, &[0xFF01_8144]),
    ];
    let lines = [
        format!("1 1 partner 0 01A800FF E113CD71 - partner:FF00:1:0 none 0 - 2.1 {RUNS} - - none 0 - 2.1"),
        format!("1 2 partner 0 - - - - open:0 0 - 1.0 {RUNS} - - none 0 - 2.1"),
        format!("1 3 cable 0 01A800FF E113CD71 - cable:FF00:1:0 none 0 - 2.1 {RUNS} - - open:0 0 - 1.0"),
        format!("1 4 cable 0 - - - - open:0 0 - 2.1 {RUNS} - - open:0 0 - 1.0"),
        format!("1 5 partner 0 028000FF B2FD0A1E - partner:FF00:2:0 open:0 0 - 1.0 {RUNS} - - open:0 0 - 2.1"),
        format!("1 6 partner 0 - - - - done:1:0 1 - 1.0 {RUNS} - - open:0 0 - 2.1"),
        format!("1 7 cable 0 02A800FF 21F37506 - cable:FF00:2:0 open:0 0 - 2.1 {RUNS} - - done:1:0 1 - 1.0"),
        format!("1 8 cable 0 - - - - done:1:0 1 - 2.1 {RUNS} - - done:1:0 1 - 1.0"),
        format!("1 9 partner 0 038001FF 0939B466 - partner:FF01:3:0 done:1:0 1 - 1.0 {RUNS} - - done:1:0 1 - 2.1"),
        format!("1 10 partner 0 - - - - none 1 1 1.0 {RUNS_HELD} - - done:1:0 1 - 2.1"),
        format!("1 11 partner 0 01A800FF E113CD71 - partner:FF00:1:0 none 0 1 2.1 {RUNS_HELD} - - done:1:0 1 - 2.1"),
        format!("1 12 partner 0 - - - - none 0 1 2.1 {RUNS_HELD} - - done:1:0 1 - 2.1"),
        format!("1 13 partner 0 04A901FF 2DADA02E - partner:FF01:4:1 none 0 1 2.1 {RUNS_HELD} - - done:1:0 1 - 2.1"),
        format!("1 14 partner 0 - - - - none 0 1 2.1 {RUNS_HELD} - - done:1:0 1 - 2.1"),
        "end 14 events".to_string(),
    ];
    assert_eq!(answers(&events.concat())[1..], lines);
}

/// After case L at 1.0 and these events, of the partner or of the cable, an enter is sent so.
fn assert_enter(events: &[&[u8]], sent: &str) {
    let events: Vec<Vec<u8>> = events.iter().map(|event| event.to_vec()).collect();
    let stream = [held_at_1_0(), events.concat(), ENTER.to_vec()].concat();
    let lines = answers(&stream);
    let last = &lines[lines.len() - 2];
    let fields: Vec<&str> = last.split(' ').collect();
    assert_eq!(
        (fields[2], fields[3], fields[4]),
        ("partner", "0", sent),
        "{last}"
    );
}

#[test]
fn an_identity_that_comes_to_nothing_leaves_ours() {
    let [nak, busy] = [0xFF00_8081, 0xFF00_80C1].map(|header| from_partner(&[header]));
    let ends: [&[u8]; 4] = [&nak, &busy, &RESPONSE_TIMER, &PROTOCOL_ERROR];
    for end in ends {
        assert_enter(&[&NEXT, end], AT_2_1);
        assert_enter(&[&START_OVER, end], AT_2_1);
        assert_enter(&[&NEXT, end, &identity(0xFF00_8041)], AT_2_1);
        assert_enter(&[&NEXT, end, &NEXT, &identity(0xFF00_A041), &DROP], AT_2_0);
    }
}

#[test]
fn drop_a_bad_page_a_voiding_nak_and_a_late_page_leave_the_edition() {
    let opened = [&NEXT[..], &identity(0xFF00_A041)].concat();
    let bad_page = from_partner(&[0xFF00_A842, 0x0001_0000, 0x0002_0000]);
    let page = from_partner(&[0xFF00_8042, 0xFF01_0000]);
    let nak = from_partner(&[0xFF01_B883]);
    assert_enter(&[&opened, &DROP], AT_2_0);
    assert_enter(&[&opened, &NEXT, &bad_page], AT_2_0);
    assert_enter(&[&opened, &NEXT, &page, &NEXT, &nak], AT_2_0);
    assert_enter(&[&opened, &NEXT, &RESPONSE_TIMER, &page], AT_2_0);
}

#[test]
fn an_identity_that_does_not_go_out_leaves_the_edition() {
    assert_enter(&[], AT_1_0);
    assert_enter(&[&SHORT_OUTPUT, &NEXT, &START_OVER, &WHOLE], AT_1_0);
    assert_enter(&[&SHORT_RUN, &NEXT, &START_OVER, &WHOLE], AT_1_0);
    let [entered, exited] = [0xFF01_A944, 0xFF01_A945].map(|header| from_partner(&[header]));
    assert_enter(&[&ENTER, &NEXT, &START_OVER, &PROTOCOL_ERROR], AT_1_0);
    let blocked: [&[u8]; 6] = [&ENTER, &entered, &NEXT, &START_OVER, &EXIT, &exited];
    assert_enter(&blocked, AT_1_0);
}

#[test]
fn the_cable_s_editions_leave_the_partner_s() {
    let cable = |event: &[u8]| twin(event.to_vec());
    let answers = [0xFF00_A841, 0xFF00_A041, 0xFF00_8041].map(|header| cable(&identity(header)));
    for answer in &answers {
        assert_enter(&[&cable(&NEXT), answer], AT_1_0);
        assert_enter(
            &[&cable(&NEXT), answer, &cable(&NEXT), &RESPONSE_TIMER],
            AT_1_0,
        );
        assert_enter(&[&cable(&NEXT), &PROTOCOL_ERROR, answer], AT_1_0);
        assert_enter(&[&NEXT, &RESPONSE_TIMER, &cable(&NEXT), answer], AT_2_1);
    }
}
