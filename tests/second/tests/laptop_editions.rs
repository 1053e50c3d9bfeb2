//! The edition of each side's requests (02, R-5), held against values worked out by hand.

use second::call::Call;
use second::edition::Edition::{self, OneZero, TwoOne, TwoZero};
use second::side::Side;
use second::watcher::{Event, Outcome, Run};

/// The version bits of each edition, with bit 15.
const EDITIONS: [(Edition, u32); 3] = [(OneZero, 0x8000), (TwoZero, 0xA000), (TwoOne, 0xA800)];
const OURS: u32 = 0xA800;
const ASK_IDENTITY: u32 = 0xFF00_A801;

fn message(run: &mut Run, side: Side, objects: &[u32]) -> u8 {
    let objects = objects.to_vec();
    run.take(&Event::Message { side, objects }).refusal
}

fn call(run: &mut Run, call: Call) -> Outcome {
    run.take(&Event::Call(call))
}

fn next(run: &mut Run, side: Side) -> Option<u32> {
    call(run, Call::Next(side)).sent
}

fn enter(run: &mut Run, side: Side) -> Option<u32> {
    let (svid, position) = (1, 1);
    let enter = Call::Enter {
        side,
        svid,
        position,
    };
    call(run, enter).sent
}

fn exit(run: &mut Run, side: Side) -> Option<u32> {
    let (svid, position) = (1, 7);
    let exit = Call::Exit {
        side,
        svid,
        position,
    };
    call(run, exit).sent
}

fn identity(version: u32) -> [u32; 4] {
    [0xFF00_0041 | version, 1, 2, 3]
}

/// Identity goes out and is answered in this version.
fn open(run: &mut Run, side: Side, version: u32) {
    assert_eq!(next(run, side), Some(ASK_IDENTITY));
    assert_eq!(run.laptop().edition(side), TwoOne);
    assert_eq!(message(run, side, &identity(version)), 0);
}

/// Holds SVID 1 with a mode. Identity is answered in one version, and the rest in another, which
/// changes nothing.
fn hold(run: &mut Run, side: Side, version: u32, others: u32) {
    open(run, side, version);
    assert_eq!(next(run, side), Some(0xFF00_0002 | version));
    assert_eq!(message(run, side, &[0xFF00_0042 | others, 0x0001_0000]), 0);
    assert_eq!(next(run, side), Some(0x0001_0003 | version));
    assert_eq!(message(run, side, &[0x0001_0043 | others, 7]), 0);
}

/// Enter of the held mode goes out in this version, and BUSY comes.
fn enter_goes_at(run: &mut Run, side: Side, version: u32) {
    assert_eq!(enter(run, side), Some(0x0001_0104 | version));
    assert_eq!(message(run, side, &[0x0001_A1C4]), 0);
}

#[test]
fn a_fresh_side_is_at_2_1() {
    for side in Side::BOTH {
        assert_eq!(Run::default().laptop().edition(side), TwoOne);
    }
}

#[test]
fn every_version_of_the_identity_ack_has_its_edition() {
    for side in Side::BOTH {
        for (version, edition) in [
            (0x8000, OneZero),
            (0x8800, OneZero),
            (0x9000, OneZero),
            (0x9800, OneZero),
            (0xA000, TwoZero),
            (0xA800, TwoOne),
            (0xB000, TwoOne),
            (0xB800, TwoOne),
        ] {
            let mut run = Run::default();
            open(&mut run, side, version);
            assert_eq!(run.laptop().edition(side), edition);
        }
    }
}

#[test]
fn all_requests_after_it_are_at_that_edition_whatever_the_other_acks_say() {
    for side in Side::BOTH {
        for (edition, version) in EDITIONS {
            for (_, others) in EDITIONS {
                let mut run = Run::default();
                hold(&mut run, side, version, others);
                assert_eq!(enter(&mut run, side), Some(0x0001_0104 | version));
                assert_eq!(message(&mut run, side, &[0x0001_0144 | others]), 0);
                assert_eq!(exit(&mut run, side), Some(0x0001_0705 | version));
                assert_eq!(message(&mut run, side, &[0x0001_0745 | others]), 0);
                enter_goes_at(&mut run, side, version);
                assert_eq!(run.laptop().edition(side), edition);
            }
        }
    }
}

#[test]
fn identity_without_ack_leaves_2_1() {
    for side in Side::BOTH {
        for (_, version) in EDITIONS {
            let ends: [fn(&mut Run, Side, u32) -> u8; 4] = [
                |run, side, version| message(run, side, &[0xFF00_0081 | version]),
                |run, side, version| message(run, side, &[0xFF00_00C1 | version]),
                |run, _, _| call(run, Call::ResponseTimer).refusal,
                |run, _, _| call(run, Call::ProtocolError).refusal,
            ];
            for end in ends {
                let mut run = Run::default();
                hold(&mut run, side, version, version);
                enter_goes_at(&mut run, side, version);
                assert_eq!(next(&mut run, side), Some(ASK_IDENTITY));
                assert_eq!(end(&mut run, side, version), 0);
                enter_goes_at(&mut run, side, OURS);
            }
        }
    }
}

#[test]
fn a_late_identity_ack_counts_only_if_it_is_taken() {
    for (_, version) in EDITIONS {
        for (_, other) in EDITIONS {
            let (mut run, side) = (Run::default(), Side::Cable);
            assert_eq!(next(&mut run, side), Some(ASK_IDENTITY));
            assert_eq!(call(&mut run, Call::ResponseTimer).refusal, 0);
            assert_eq!(message(&mut run, side, &identity(other)), 6);
            assert_eq!(run.laptop().edition(side), TwoOne);
            open(&mut run, side, version);
            assert_eq!(message(&mut run, side, &identity(other)), 6);
            assert_eq!(next(&mut run, side), Some(0xFF00_0002 | version));
            assert_eq!(message(&mut run, side, &identity(other)), 6);
            assert_eq!(call(&mut run, Call::ResponseTimer).refusal, 0);
            assert_eq!(next(&mut run, side), Some(0xFF00_0002 | version));
        }
    }
}

#[test]
fn a_lost_candidate_leaves_the_edition() {
    for (_, version) in EDITIONS {
        let losses: [fn(&mut Run, Side) -> u8; 4] = [
            |run, side| call(run, Call::Drop(side)).refusal,
            |run, side| {
                next(run, side);
                message(run, side, &[0xFF00_A042, 0])
            },
            |run, side| {
                next(run, side);
                call(run, Call::ResponseTimer);
                message(run, side, &[0xFF00_A042, 0x0001_0000])
            },
            two_hundred_pages,
        ];
        for (lose, refusal) in losses.into_iter().zip([0, 8, 6, 14]) {
            let (mut run, side) = (Run::default(), Side::Partner);
            hold(&mut run, side, OURS, OURS);
            open(&mut run, side, version);
            assert_eq!(lose(&mut run, side), refusal);
            enter_goes_at(&mut run, side, version);
        }
    }
}

/// The refusal of the last.
fn two_hundred_pages(run: &mut Run, side: Side) -> u8 {
    let page = [
        0xFF00_A042,
        0x1_0002,
        0x3_0004,
        0x5_0006,
        0x7_0008,
        0x9_000A,
        0xB_000C,
    ];
    let refusals = (0..200).map(|_| {
        next(run, side);
        message(run, side, &page)
    });
    refusals.last().unwrap()
}

#[test]
fn a_call_that_is_refused_leaves_the_edition() {
    let (mut run, side) = (Run::default(), Side::Partner);
    hold(&mut run, side, 0x8000, 0x8000);
    next(&mut run, side.other());
    assert_eq!(call(&mut run, Call::StartOver(side)).refusal, 7);
    assert_eq!(call(&mut run, Call::ProtocolError).refusal, 0);
    assert_eq!(enter(&mut run, side), Some(0x0001_8104));
    assert_eq!(message(&mut run, side, &[0x0001_A144]), 0);
    assert_eq!(call(&mut run, Call::Next(side)).refusal, 13);
    assert_eq!(exit(&mut run, side), Some(0x0001_8705));
}

#[test]
fn each_side_has_its_own_edition() {
    for (edition, version) in EDITIONS {
        for (other_edition, others) in EDITIONS {
            let mut run = Run::default();
            hold(&mut run, Side::Partner, version, version);
            hold(&mut run, Side::Cable, others, others);
            enter_goes_at(&mut run, Side::Partner, version);
            enter_goes_at(&mut run, Side::Cable, others);
            assert_eq!(run.laptop().edition(Side::Partner), edition);
            assert_eq!(run.laptop().edition(Side::Cable), other_edition);
        }
    }
}
