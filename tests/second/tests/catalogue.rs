//! Catalogue bytes, held against values worked out by hand from document 01.

use crate::bench::{Bench, UNWRITTEN_WORD};
use second::catalogue::{Catalogue, MOST_CATALOGUE_BYTES, RUN_WORDS};
use second::side::Side;

/// Case L's catalogue.
const CASE_L: [u8; 22] = [
    0x03, 0x22, 0x22, 0x11, 0x11, 0, 0, 0, 0, 0xFF, 0xFF, 0xFF, 0xFF, 0x10, 0x01, 0xFF, 0x20, 0x05,
    0x04, 0, 0, 0,
];

fn case_l() -> Bench {
    let mut bench = Bench::open();
    bench.page(&[0xFF01, 0]).unwrap();
    bench.exchange(0xFF01_A003, &[0xFF01_A043, 0x405]).unwrap();
    bench
}

fn written(bench: &Bench, room: usize) -> Result<Vec<u8>, u8> {
    let mut out = vec![0x5A; room];
    let result = bench
        .laptop
        .write_catalogue(Side::Partner, &bench.held, &mut out);
    let length = result.unwrap_or(0);
    assert!(out[length..].iter().all(|&byte| byte == 0x5A));
    result.map(|length| out[..length].to_vec())
}

#[test]
fn case_l_is_22_bytes_and_bytes_past_the_end_stay() {
    assert_eq!(written(&case_l(), 22), Ok(CASE_L.to_vec()));
    assert_eq!(written(&case_l(), 2402), Ok(CASE_L.to_vec()));
}

#[test]
fn a_short_buffer_is_refused_11() {
    for room in 0..22 {
        assert_eq!(written(&case_l(), room), Err(11));
    }
}

#[test]
fn nothing_held_is_refused_12_before_a_short_buffer_and_after_a_short_run() {
    for mut bench in [Bench::fresh(), Bench::listed(1)] {
        assert_eq!(written(&bench, 0), Err(12));
        assert_eq!(written(&bench, 2402), Err(12));
        bench.held.truncate(431);
        assert_eq!(written(&bench, 2402), Err(11));
    }
}

#[test]
fn a_short_run_is_refused_11_and_a_longer_run_is_not() {
    let mut bench = case_l();
    bench.held.push(0);
    assert_eq!(written(&bench, 22), Ok(CASE_L.to_vec()));
    bench.held.truncate(431);
    assert_eq!(written(&bench, 22), Err(11));
}

#[test]
fn an_empty_catalogue_is_identity_and_end() {
    let mut bench = Bench::fresh();
    let identity = [0xFF00_A041, 1, 2, 3, 4, 5, 6];
    bench.exchange(0xFF00_A801, &identity).unwrap();
    bench.exchange(0xFF00_A002, &[0xFF00_A082]).unwrap();
    let mut bytes = vec![0x06];
    bytes.extend((1..=6).flat_map(|object: u32| object.to_le_bytes()));
    bytes.push(0);
    assert_eq!(written(&bench, 26), Ok(bytes));
    assert_eq!(written(&bench, 25), Err(11));
}

#[test]
fn fewer_than_three_identity_objects_are_refused_12_before_a_short_buffer() {
    for objects in 0..=6 {
        let catalogue = Catalogue::of_identity(&[1, 2, 3, 4, 5, 6][..objects]);
        let length = 4 * objects + 2;
        for room in [0, length - 1, length, 2402] {
            let mut out = vec![0x5A; room];
            let result = catalogue.write(&[0; RUN_WORDS], &mut out);
            if objects < 3 {
                assert_eq!(result, Err(12));
            } else if room < length {
                assert_eq!(result, Err(11));
            } else {
                assert_eq!(result, Ok(length));
                assert_eq!(usize::from(out[0]), objects);
            }
            let written = result.unwrap_or(0);
            assert!(out[written..].iter().all(|&byte| byte == 0x5A));
        }
    }
}

#[test]
fn svids_and_modes_are_in_catalogue_order() {
    let bench = Bench::holding(2, &[0xA, 0x0102_0304]);
    let mut bytes = CASE_L[..13].to_vec();
    for svid in [1, 2] {
        bytes.extend([0x10, svid, 0, 0x20, 0xA, 0, 0, 0, 0x20, 4, 3, 2, 1]);
    }
    bytes.push(0);
    assert_eq!(written(&bench, 64), Ok(bytes));
}

#[test]
fn the_longest_catalogue_has_2402_bytes() {
    assert_eq!(MOST_CATALOGUE_BYTES, 2402);
    let mut bench = Bench::holding(72, &[1, 2, 3, 4, 5, 6]);
    assert_eq!(written(&bench, 2402).unwrap().len(), 2402 - 3 * 4);
    let identity = [0xFF00_A041, 1, 2, 3, 4, 5, 6];
    bench.exchange(0xFF00_A801, &identity).unwrap();
    for first in (1..72).step_by(12) {
        let page: Vec<u16> = (first..first + 12).collect();
        bench.page(&page).unwrap();
    }
    bench.page(&[0, 0]).unwrap();
    for svid in 1..=72 {
        let header = svid << 16 | 0xA003;
        let answer = [header | 0x40, 1, 2, 3, 4, 5, 6];
        bench.exchange(header, &answer).unwrap();
    }
    let bytes = written(&bench, 2402).unwrap();
    assert_eq!(bytes.len(), 2402);
    assert_eq!(bytes[2396..], [0x20, 6, 0, 0, 0, 0]);
    assert_eq!(written(&bench, 2401), Err(11));
}

#[test]
fn gathering_again_changes_no_byte_until_it_is_published() {
    let mut bench = case_l();
    bench.reopen();
    bench.page(&[7, 8, 0, 0]).unwrap();
    bench.exchange(0x0007_A003, &[0x0007_A043, 1, 2]).unwrap();
    assert_eq!(written(&bench, 22), Ok(CASE_L.to_vec()));
    assert_eq!(bench.held[1], UNWRITTEN_WORD);
    bench.exchange(0x0008_A003, &[0x0008_A043, 3]).unwrap();
    let svids = [
        0x10, 7, 0, 0x20, 1, 0, 0, 0, 0x20, 2, 0, 0, 0, 0x10, 8, 0, 0x20, 3, 0, 0, 0, 0,
    ];
    let bytes = [&CASE_L[..13], &svids].concat();
    assert_eq!(written(&bench, 64), Ok(bytes));
}
