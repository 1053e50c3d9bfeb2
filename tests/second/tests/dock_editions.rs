//! The edition of the dock's answers (02, R-5), held against values worked out by hand.

use second::dock::PolicyAnswer::{Busy, Give, Nak};
use second::dock::{Dock, PolicyAnswer, Standing};
use second::edition::Edition::{self, OneZero, TwoOne, TwoZero};

const ROOM: usize = 28;
/// An SVIDs request and its NAK in the version bits of each edition.
const REQUESTS: [(Edition, u32, u32); 3] = [
    (OneZero, 0xFF00_8002, 0xFF00_8082),
    (TwoZero, 0xFF00_A002, 0xFF00_A082),
    (TwoOne, 0xFF00_A802, 0xFF00_A882),
];

fn loaded(svids: &[u16]) -> Dock {
    let mut dock = Dock::fresh();
    dock.load(&[1, 2, 3], svids).unwrap();
    dock
}

/// The header sent at once, or the refusal.
fn message(dock: &mut Dock, header: u32, room: usize) -> Result<Option<u32>, u8> {
    let mut out = vec![0; room];
    let length = dock.message(&header.to_le_bytes(), &mut out)?;
    Ok((length > 0).then(|| first(&out)))
}

/// The header of policy's answer.
fn answer(dock: &mut Dock, answer: PolicyAnswer) -> u32 {
    let Standing::Asking(request) = dock.standing() else {
        panic!("policy is asked");
    };
    let mut out = vec![0; ROOM];
    dock.policy(answer, request, &[], &mut out).unwrap();
    first(&out)
}

fn first(out: &[u8]) -> u32 {
    u32::from_le_bytes(*out.first_chunk().unwrap())
}

#[test]
fn a_fresh_dock_is_at_2_1() {
    assert_eq!(Dock::fresh().edition(), TwoOne);
}

#[test]
fn every_version_has_its_edition_in_ack_nak_and_busy() {
    let versions = [
        (0x8000, OneZero, 0x8000),
        (0x8800, OneZero, 0x8000),
        (0x9000, OneZero, 0x8000),
        (0x9800, OneZero, 0x8000),
        (0xA000, TwoZero, 0xA000),
        (0xA800, TwoOne, 0xA800),
        (0xB000, TwoOne, 0xA800),
        (0xB800, TwoOne, 0xA800),
    ];
    for (asked, edition, sent) in versions {
        for (policy, kind) in [(Give, 0x40), (Nak, 0x80), (Busy, 0xC0)] {
            let mut dock = loaded(&[1]);
            assert_eq!(message(&mut dock, 0xFF00_0002 | asked, 0), Ok(None));
            assert_eq!(dock.edition(), edition);
            assert_eq!(answer(&mut dock, policy), 0xFF00_0002 | sent | kind);
        }
        let nak = message(&mut Dock::fresh(), 0x1234_0308 | asked, 4);
        assert_eq!(nak, Ok(Some(0x1234_0388 | sent)));
    }
}

/// Case 1 of 01 is the answer to a request at 2.0.
#[test]
fn the_nak_to_an_empty_list_is_at_the_requests_edition() {
    for (_, request, nak) in REQUESTS {
        let mut dock = loaded(&[]);
        assert_eq!(message(&mut dock, request, 0), Ok(None));
        assert_eq!(answer(&mut dock, Give), nak);
    }
}

#[test]
fn a_request_that_differs_in_the_edition_alone_replaces_the_old() {
    for (_, first, _) in REQUESTS {
        for (edition, second, nak) in REQUESTS {
            for is_answered in [false, true] {
                let mut dock = loaded(&[1]);
                assert_eq!(message(&mut dock, first, 0), Ok(None));
                if is_answered {
                    answer(&mut dock, Busy);
                }
                assert_eq!(message(&mut dock, second, 0), Ok(None));
                assert_eq!(dock.edition(), edition);
                assert_eq!(answer(&mut dock, Nak), nak);
            }
        }
    }
}

/// A command 8 without room for its NAK; then what is unstructured, of major 2 or 3, misshapen, no
/// request, and Attention.
fn refused_in(version: u32) -> [(u32, u8); 6] {
    [
        (0xFF01_0008 | version, 11),
        (0xFF00_0002 | version & 0x7FFF, 2),
        (0xFF00_4002 | version, 3),
        (0xFF01_0002 | version, 5),
        (0xFF00_0082 | version, 6),
        (0xFF01_0106 | version, 6),
    ]
}

#[test]
fn a_message_that_is_refused_leaves_the_edition() {
    for (edition, request, nak) in REQUESTS {
        for (header, refusal) in [0x8000, 0xA000, 0xA800].into_iter().flat_map(refused_in) {
            let mut dock = loaded(&[1]);
            assert_eq!(message(&mut dock, request, 0), Ok(None));
            assert_eq!(message(&mut dock, header, 0), Err(refusal));
            assert_eq!(dock.edition(), edition);
            assert_eq!(answer(&mut dock, Nak), nak);
        }
    }
}

#[test]
fn a_nak_without_policy_sets_the_edition_and_loading_keeps_it() {
    for (edition, request, _) in REQUESTS {
        let mut dock = loaded(&[1]);
        let vendor = request & 0xFFFF_FFE0 | 31;
        assert_eq!(message(&mut dock, vendor, 4), Ok(Some(vendor | 0x80)));
        assert_eq!(dock.edition(), edition);
        assert_eq!(dock.failed(), Ok(()));
        assert_eq!(dock.load(&[1, 2, 3], &[7]), Ok(()));
        assert_eq!(dock.edition(), edition);
    }
}

#[test]
fn a_dock_of_a_lower_highest_edition_answers_at_the_lower() {
    for (highest, _, nak_of_highest) in REQUESTS {
        for (edition, request, nak) in REQUESTS {
            let mut dock = Dock::of_highest(highest);
            assert_eq!(dock.edition(), highest);
            assert_eq!(message(&mut dock, request, 0), Ok(None));
            let expected = if edition < highest {
                nak
            } else {
                nak_of_highest
            };
            assert_eq!(answer(&mut dock, Nak), expected);
        }
    }
}
