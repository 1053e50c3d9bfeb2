//! The laptop end, held against values worked out by hand from document 01.

use crate::bench::{bytes, page_ack, Bench, Seen, IDENTITY_ACK, ROOM, RUN_WORDS, UNWRITTEN_WORD};
use second::call::Call;
use second::laptop::Candidate::{ListDone, ListOpen};
use second::laptop::{Answer, Candidate, Laptop, Reason, Runs, Told};
use second::messages::{read, Request};
use second::side::Side;

const ASK_IDENTITY: u32 = 0xFF00_A801;
const ASK_LIST: u32 = 0xFF00_A002;
const NAK_LIST: u32 = 0xFF00_A082;
const BUSY_LIST: u32 = 0xFF00_A0C2;
/// SVIDs 1 to 12.
const FULL: [u16; 12] = [1, 2, 3, 4, 5, 6, 7, 8, 9, 10, 11, 12];
const NOTHING: Seen = Ok((None, None));

fn sent(header: u32) -> Seen {
    Ok((Some(header), None))
}

fn start_over(bench: &mut Bench) -> Seen {
    bench.called(ROOM, |laptop, runs, out| {
        laptop.start_over(Side::Partner, runs, out)
    })
}

fn drop(bench: &mut Bench) -> Seen {
    bench.called(ROOM, |laptop, runs, _| laptop.drop(Side::Partner, runs))
}

fn enter(bench: &mut Bench, svid: u16, position: u8) -> Seen {
    bench.called(ROOM, |laptop, runs, out| {
        laptop.enter(Side::Partner, svid, position, runs, out)
    })
}

fn exit(bench: &mut Bench, svid: u16, position: u8) -> Seen {
    bench.called(ROOM, |laptop, runs, out| {
        laptop.exit(Side::Partner, svid, position, runs, out)
    })
}

/// A call with a buffer of that room.
fn call_in(bench: &mut Bench, room: usize, call: Call) -> Seen {
    bench.called(room, |laptop, runs, out| call.make(laptop, runs, out))
}

/// A timer or a protocol error.
fn end(bench: &mut Bench, call: fn(&mut Laptop) -> Answer) -> Seen {
    bench.called(0, |laptop, _, _| call(laptop))
}

/// A call that must be refused and leave everything alone.
fn refused(bench: &Bench, refusal: u8, call: impl FnOnce(&mut Bench) -> Seen) {
    let mut after = bench.clone();
    assert_eq!(call(&mut after), Err(refusal));
    assert_eq!(after, *bench);
}

fn gathered(bench: &Bench) -> usize {
    match bench.laptop.candidate(Side::Partner) {
        ListOpen(catalogue) | ListDone(catalogue) => catalogue.svids.len(),
        Candidate::None => panic!("no candidate"),
    }
}

fn is_open(bench: &Bench) -> bool {
    matches!(bench.laptop.candidate(Side::Partner), ListOpen(_))
}

fn is_done(bench: &Bench) -> bool {
    matches!(bench.laptop.candidate(Side::Partner), ListDone(_))
}

fn has_no_candidate(bench: &Bench) -> bool {
    *bench.laptop.candidate(Side::Partner) == Candidate::None
}

/// Refused, with no wait and no candidate after it, and otherwise as before but for the count.
fn voided(bench: &mut Bench, refusal: u8, pages: usize, message: &[u32]) {
    let before = bench.clone();
    assert_eq!(bench.message(message), Err(refusal));
    assert!(has_no_candidate(bench) && bench.laptop.awaited().is_none());
    assert_eq!(bench.laptop.page_count(Side::Partner), pages);
    assert_eq!(
        bench.laptop.held(Side::Partner),
        before.laptop.held(Side::Partner)
    );
    assert_eq!(
        (&bench.held, &bench.candidate),
        (&before.held, &before.candidate)
    );
}

/// SVIDs 1 and 2, with two modes each; mode 1 of SVID 1 is entered.
fn entered() -> Bench {
    let mut bench = Bench::holding(2, &[0xA, 0xB]);
    assert_eq!(enter(&mut bench, 1, 1), sent(0x0001_A104));
    assert_eq!(bench.message(&[0x0001_A144]), NOTHING);
    bench
}

/// A laptop in each wait: for Identity, SVIDs, Modes, Enter and Exit.
fn waits() -> [(Bench, Request); 5] {
    let mut benches = [
        Bench::fresh(),
        Bench::open(),
        Bench::listed(1),
        Bench::holding(1, &[7]),
        entered(),
    ];
    for bench in &mut benches[..3] {
        bench.next().unwrap();
    }
    enter(&mut benches[3], 1, 1).unwrap();
    exit(&mut benches[4], 1, 7).unwrap();
    benches.map(|bench| {
        let request = bench.laptop.awaited_from(Side::Partner).unwrap();
        (bench, request)
    })
}

/// Each state with nothing awaited: fresh, open, done, held, entered.
fn idle() -> [Bench; 5] {
    let [fresh, open, done] = [Bench::fresh(), Bench::open(), Bench::listed(3)];
    [fresh, open, done, Bench::holding(2, &[7]), entered()]
}

#[test]
fn case_l() {
    let mut bench = Bench::fresh();
    assert_eq!(bench.next(), sent(0xFF00_A801));
    assert_eq!(bench.message(&IDENTITY_ACK), NOTHING);
    assert_eq!(bench.next(), sent(0xFF00_A002));
    assert_eq!(bench.message(&[0xFF00_A042, 0xFF01_0000]), NOTHING);
    assert_eq!(bench.laptop.page_count(Side::Partner), 1);
    assert_eq!(bench.next(), sent(0xFF01_A003));
    assert!(bench.laptop.held(Side::Partner).is_none());
    assert_eq!(bench.message(&[0xFF01_A043, 0x0000_0405]), NOTHING);
    let held = bench.laptop.held(Side::Partner).unwrap();
    assert_eq!(held.identity, IDENTITY_ACK[1..]);
    assert_eq!(
        (&held.svids[..], &held.mode_counts[..]),
        (&[0xFF01][..], &[1][..])
    );
    assert!(has_no_candidate(&bench) && bench.laptop.awaited().is_none());
    let mut run = vec![UNWRITTEN_WORD; RUN_WORDS];
    run[0] = 0x405;
    assert_eq!((&bench.held, &bench.candidate), (&run, &run));
}

#[test]
fn case_9_enter_is_one_object_and_reads_as_enter() {
    let read = read(&bytes(&[0xFF01_A104])).unwrap();
    assert_eq!(
        (read.svid, read.command, read.kind, read.position),
        (0xFF01, 4, 0, 1)
    );
    let mut bench = Bench::open();
    bench.page(&[0xFF01, 0]).unwrap();
    bench.exchange(0xFF01_A003, &[0xFF01_A043, 0x405]).unwrap();
    assert_eq!(enter(&mut bench, 0xFF01, 1), sent(0xFF01_A104));
}

#[test]
fn case_10_a_bad_page_is_refused_8_and_counted() {
    let mut bench = Bench::open();
    bench.next().unwrap();
    voided(&mut bench, 8, 1, &[0xFF00_A042, 0x0001_0000, 0x0002_0000]);
}

#[test]
fn case_11_an_unconfirmed_page_is_counted_and_adds_nothing() {
    let mut bench = Bench::open();
    assert_eq!(bench.page(&FULL), NOTHING);
    assert_eq!(bench.page(&FULL), NOTHING);
    assert_eq!((gathered(&bench), is_open(&bench)), (12, true));
    assert_eq!(bench.page(&[13, 0]), NOTHING);
    assert_eq!(
        (bench.laptop.page_count(Side::Partner), gathered(&bench)),
        (3, 13)
    );
    assert!(is_done(&bench));
}

#[test]
fn case_12_a_nak_after_a_page_voids_and_the_old_catalogue_stays_held() {
    let mut bench = Bench::holding(3, &[1, 2]);
    bench.reopen();
    bench.page(&FULL).unwrap();
    bench.next().unwrap();
    voided(&mut bench, 8, 1, &[NAK_LIST]);
    assert_eq!(bench.laptop.held(Side::Partner).unwrap().svids, [1, 2, 3]);
}

#[test]
fn identity_without_ack_leaves_no_candidate() {
    for answer in [0xFF00_A081, 0xFF00_A0C1] {
        let mut bench = Bench::fresh();
        assert_eq!(bench.exchange(ASK_IDENTITY, &[answer]), NOTHING);
        assert!(has_no_candidate(&bench));
        assert_eq!(bench.next(), sent(ASK_IDENTITY));
    }
}

#[test]
fn a_nak_with_nothing_gathered_publishes_an_empty_list() {
    let mut bench = Bench::holding(2, &[1]);
    let runs = (bench.held.clone(), bench.candidate.clone());
    bench.reopen();
    assert_eq!(bench.exchange(ASK_LIST, &[BUSY_LIST]), NOTHING);
    assert_eq!(bench.exchange(ASK_LIST, &[NAK_LIST]), NOTHING);
    assert!(bench.laptop.held(Side::Partner).unwrap().svids.is_empty());
    assert_eq!(bench.laptop.page_count(Side::Partner), 0);
    assert_eq!((&bench.held, &bench.candidate), (&runs.0, &runs.1));
    assert_eq!(bench.next(), sent(ASK_IDENTITY));
}

#[test]
fn busy_and_a_timer_leave_the_gathering_as_it_was() {
    let calls: [fn(&mut Laptop) -> Answer; 2] = [Laptop::response_timer, Laptop::protocol_error];
    for (gathering, header) in [(Bench::open(), ASK_LIST), (Bench::listed(13), 0x0001_A003)] {
        for call in calls {
            let mut bench = gathering.clone();
            assert_eq!(bench.exchange(header, &[header | 0xC0]), NOTHING);
            assert_eq!(bench, gathering);
            assert_eq!(bench.next(), sent(header));
            assert_eq!(end(&mut bench, call), NOTHING);
            assert_eq!(bench, gathering);
        }
    }
}

#[test]
fn modes_are_asked_in_order_and_only_what_came_is_written() {
    let mut bench = Bench::listed(2);
    bench
        .exchange(0x0001_A003, &[0x0001_A043, 1, 2, 3, 4, 5, 6])
        .unwrap();
    assert_eq!(bench.held, vec![UNWRITTEN_WORD; RUN_WORDS]);
    assert!(is_done(&bench) && bench.laptop.held(Side::Partner).is_none());
    bench.exchange(0x0002_A003, &[0x0002_A043, 7, 8]).unwrap();
    let mut run = vec![UNWRITTEN_WORD; RUN_WORDS];
    run[..8].copy_from_slice(&[1, 2, 3, 4, 5, 6, 7, 8]);
    assert_eq!((&bench.held, &bench.candidate), (&run, &run));
    assert_eq!(
        bench.laptop.held(Side::Partner).unwrap().mode_counts,
        [6, 2]
    );
}

#[test]
fn publishing_copies_no_word_beyond_the_modes() {
    let mut bench = Bench::listed(2);
    bench.candidate.fill(9);
    bench.exchange(0x0001_A003, &[0x0001_A043, 1]).unwrap();
    bench.exchange(0x0002_A003, &[0x0002_A043, 2, 3]).unwrap();
    let mut run = vec![UNWRITTEN_WORD; RUN_WORDS];
    (run[0], run[6], run[7]) = (1, 2, 3);
    assert_eq!(bench.held, run);
    assert_eq!(bench.candidate[..9], [1, 9, 9, 9, 9, 9, 2, 3, 9]);
}

#[test]
fn a_nak_to_modes_voids() {
    let mut bench = Bench::listed(13);
    bench.exchange(0x0001_A003, &[0x0001_A043, 1]).unwrap();
    assert_eq!(bench.next(), sent(0x0002_A003));
    voided(&mut bench, 8, 2, &[0x0002_A083]);
}

#[test]
fn the_200th_page_may_end_the_list_and_else_is_14() {
    let mut bench = Bench::open();
    for page in 1..=199 {
        assert_eq!(bench.page(&FULL), NOTHING);
        assert_eq!(
            (bench.laptop.page_count(Side::Partner), gathered(&bench)),
            (page, 12)
        );
    }
    let mut ends = bench.clone();
    assert_eq!(ends.page(&[13, 0]), NOTHING);
    assert!(is_done(&ends) && ends.laptop.page_count(Side::Partner) == 200);
    bench.next().unwrap();
    let more: Vec<u16> = (13..=24).collect();
    voided(&mut bench.clone(), 14, 200, &page_ack(&FULL));
    voided(&mut bench.clone(), 14, 200, &page_ack(&more));
    voided(&mut bench.clone(), 8, 200, &page_ack(&[1, 0]));
    voided(&mut bench.clone(), 8, 199, &[NAK_LIST]);
    assert_eq!(bench.message(&[BUSY_LIST]), NOTHING);
    assert_eq!(bench.laptop.page_count(Side::Partner), 199);
    voided_then_asked_again(bench);
}

fn voided_then_asked_again(mut bench: Bench) {
    bench.next().unwrap();
    voided(&mut bench, 14, 200, &page_ack(&FULL));
    assert_eq!(bench.next(), sent(ASK_IDENTITY));
    assert_eq!(bench.laptop.page_count(Side::Partner), 0);
}

#[test]
fn a_list_of_72_is_gathered_and_73_are_refused_8() {
    let bench = Bench::listed(72);
    assert_eq!(
        (gathered(&bench), bench.laptop.page_count(Side::Partner)),
        (72, 7)
    );
    let mut bench = Bench::open();
    for first in (1..72).step_by(12) {
        let page: Vec<u16> = (first..first + 12).collect();
        assert_eq!(bench.page(&page), NOTHING);
    }
    bench.next().unwrap();
    voided(&mut bench, 8, 7, &page_ack(&[73, 0]));
}

#[test]
fn a_late_page_drops_an_open_list_and_no_other_candidate() {
    let page = page_ack(&[5, 0]);
    let mut bench = Bench::open();
    bench.page(&FULL).unwrap();
    refused(&bench, 6, |bench| bench.message(&[NAK_LIST]));
    refused(&bench, 6, |bench| bench.message(&[BUSY_LIST]));
    refused(&bench, 6, |bench| bench.message(&[ASK_LIST]));
    refused(&bench, 5, |bench| bench.message(&[0xFF00_A042]));
    refused(&bench, 6, |bench| bench.message(&[0x0001_A043, 7]));
    refused(&bench, 6, |bench| bench.message(&IDENTITY_ACK));
    voided(&mut bench, 6, 1, &page);
    assert_eq!(bench.next(), sent(ASK_IDENTITY));
    refused(&Bench::listed(13), 6, |bench| bench.message(&page));
    refused(&Bench::fresh(), 6, |bench| bench.message(&page));
    refused(&entered(), 6, |bench| bench.message(&page));
    for (bench, request) in waits() {
        if request.command != 2 {
            refused(&bench, 6, |bench| bench.message(&page));
        }
    }
}

#[test]
fn an_answer_must_fit_the_awaited_svid_command_and_position() {
    for (bench, _) in waits() {
        let fits = [0xFF00_A081, NAK_LIST, 0x0001_A083, 0x0001_A184, 0x0001_A785];
        let others = [
            0x0002_A083,
            0x0002_A184,
            0x0001_A284,
            0x0002_A785,
            0x0001_A185,
        ];
        let odd = [0x0001_A080, 0x0001_A79F, ASK_IDENTITY, 0x0001_A01F];
        let mut taken = 0;
        for header in fits.into_iter().chain(others).chain(odd) {
            let mut after = bench.clone();
            match after.message(&[header]) {
                Err(6) => assert_eq!(after, bench),
                _ => taken += 1,
            }
        }
        assert_eq!(taken, 1);
    }
}

#[test]
fn an_answer_of_any_version_that_is_read_fits() {
    for version in [
        0x0000, 0x0800, 0x1000, 0x1800, 0x2000, 0x2800, 0x3000, 0x3800,
    ] {
        let mut bench = Bench::fresh();
        let header = 0xFF00_8041 | version;
        assert_eq!(bench.exchange(ASK_IDENTITY, &[header, 1, 2, 3]), NOTHING);
        assert!(is_open(&bench));
    }
}

#[test]
fn bit_5_of_a_message_means_nothing_in_every_state() {
    let messages: [&[u32]; 7] = [
        &[0xFF00_A041, 1, 2, 3],
        &[0xFF00_A042, 0x0002_0000],
        &[0xFF00_A082],
        &[0x0001_A043, 9],
        &[0x0001_A1C4],
        &[0x0001_A745],
        &[0x0001_A206, 7],
    ];
    for bench in waits().map(|(bench, _)| bench).into_iter().chain(idle()) {
        for objects in messages {
            let [mut set, mut clear] = [bench.clone(), bench.clone()];
            let with_bit_5 = [&[objects[0] | 0x20], &objects[1..]].concat();
            assert_eq!(set.message(&with_bit_5), clear.message(objects));
            assert_eq!(set, clear);
        }
    }
}

#[test]
fn damaged_messages_are_refused_1_to_5_in_every_state() {
    let states = waits().map(|(bench, _)| bench).into_iter().chain(idle());
    for bench in states {
        for length in [0, 1, 3, 5, 27, 29, 32] {
            refused(&bench, 1, |bench| {
                let bytes = vec![0xFF; length];
                bench.called(0, |laptop, runs, _| {
                    laptop.message(Side::Partner, &bytes, runs)
                })
            });
        }
        refused(&bench, 2, |bench| bench.message(&[0xFF00_7FFF]));
        refused(&bench, 3, |bench| bench.message(&[0xFF00_C0E1]));
        refused(&bench, 5, |bench| bench.message(&[0xFF00_A041, 1, 2]));
    }
}

#[test]
fn attention_goes_to_policy_at_any_time_and_changes_nothing() {
    let states = waits().map(|(bench, _)| bench).into_iter().chain(idle());
    for bench in states {
        for objects in [&[0x0001_A206][..], &[0x0001_A206, 0x1234_5678]] {
            let mut after = bench.clone();
            let told = Told::Attention {
                side: Side::Partner,
                message: read(&bytes(objects)).unwrap(),
            };
            assert_eq!(after.message(objects), Ok((None, Some(told))));
            assert_eq!(after, bench);
        }
    }
}

#[test]
fn owners_calls_are_refused_7_while_waiting() {
    for (bench, _) in waits() {
        refused(&bench, 7, Bench::next);
        refused(&bench, 7, start_over);
        refused(&bench, 7, drop);
        for (svid, position) in [(1, 1), (1, 2), (9, 0)] {
            refused(&bench, 7, |bench| enter(bench, svid, position));
            refused(&bench, 7, |bench| exit(bench, svid, position));
        }
    }
}

#[test]
fn start_over_drops_the_candidate_and_clears_the_page_count() {
    for mut bench in [Bench::fresh(), Bench::open(), Bench::listed(13)] {
        assert_eq!(start_over(&mut bench), sent(ASK_IDENTITY));
        assert!(has_no_candidate(&bench));
        assert_eq!(bench.laptop.page_count(Side::Partner), 0);
    }
}

#[test]
fn drop_leaves_no_candidate_and_the_rest_alone() {
    for bench in idle() {
        let mut after = bench.clone();
        assert_eq!(drop(&mut after), NOTHING);
        assert!(has_no_candidate(&after));
        assert_eq!(
            after.laptop.page_count(Side::Partner),
            bench.laptop.page_count(Side::Partner)
        );
        assert_eq!(
            after.laptop.held(Side::Partner),
            bench.laptop.held(Side::Partner)
        );
        assert_eq!(
            after.laptop.entered_count(Side::Partner, 1),
            bench.laptop.entered_count(Side::Partner, 1)
        );
    }
}

#[test]
fn the_held_catalogue_stays_while_another_is_gathered() {
    let mut bench = Bench::holding(3, &[1, 2]);
    let (held, run) = (
        bench.laptop.held(Side::Partner).cloned(),
        bench.held.clone(),
    );
    bench.reopen();
    bench.page(&[9, 0]).unwrap();
    assert_eq!(bench.laptop.held(Side::Partner), held.as_ref());
    bench.exchange(0x0009_A003, &[0x0009_A043, 5]).unwrap();
    assert_eq!(bench.laptop.held(Side::Partner).unwrap().svids, [9]);
    assert_eq!((bench.held[0], &bench.held[1..]), (5, &run[1..]));
}

#[test]
fn enter_is_refused_13_for_a_candidate_then_12_then_13_if_entered() {
    for bench in [Bench::open(), Bench::listed(1)] {
        refused(&bench, 13, |bench| enter(bench, 1, 1));
        refused(&bench, 13, |bench| enter(bench, 9, 200));
    }
    let mut gathering = Bench::holding(1, &[7]);
    gathering.reopen();
    refused(&gathering, 13, |bench| enter(bench, 1, 1));
    refused(&Bench::fresh(), 12, |bench| enter(bench, 1, 1));
    let bench = entered();
    for (svid, position) in [(3, 1), (1, 3), (1, 0), (1, 7), (1, 200), (0, 1)] {
        refused(&bench, 12, |bench| enter(bench, svid, position));
    }
    refused(&bench, 13, |bench| enter(bench, 1, 1));
    assert_eq!(enter(&mut bench.clone(), 1, 2), sent(0x0001_A204));
    assert_eq!(enter(&mut bench.clone(), 2, 1), sent(0x0002_A104));
}

#[test]
fn exit_is_refused_12_then_13_and_a_candidate_does_not_block_it_first() {
    let bench = entered();
    for (svid, position) in [(3, 1), (3, 7), (1, 3), (1, 6), (1, 0), (1, 8), (1, 255)] {
        refused(&bench, 12, |bench| exit(bench, svid, position));
    }
    for (svid, position) in [(1, 2), (2, 1), (2, 7)] {
        refused(&bench, 13, |bench| exit(bench, svid, position));
    }
    assert_eq!(exit(&mut bench.clone(), 1, 1), sent(0x0001_A105));
    assert_eq!(exit(&mut bench.clone(), 1, 7), sent(0x0001_A705));
    let open = Bench::open();
    refused(&open, 12, |bench| exit(bench, 1, 7));
    let mut gathering = Bench::holding(1, &[7]);
    gathering.reopen();
    refused(&gathering, 13, |bench| exit(bench, 1, 1));
    refused(&gathering, 12, |bench| exit(bench, 2, 1));
}

#[test]
fn asking_is_refused_13_while_any_mode_is_entered() {
    let mut bench = entered();
    refused(&bench, 13, Bench::next);
    refused(&bench, 13, start_over);
    exit(&mut bench, 1, 1).unwrap();
    assert_eq!(bench.message(&[0x0001_A145]), NOTHING);
    assert_eq!(bench.next(), sent(ASK_IDENTITY));
}

#[test]
fn every_mode_is_entered_and_reported_and_7_leaves_all_of_one_svid() {
    let mut bench = Bench::holding(2, &[1, 2, 3, 4, 5, 6]);
    for svid in [1, 2] {
        for position in 1..=6 {
            let header = u32::from(svid) << 16 | 0xA004 | u32::from(position) << 8;
            assert_eq!(enter(&mut bench, svid, position), sent(header));
            assert_eq!(bench.message(&[header | 0x40]), NOTHING);
            assert_eq!(
                bench.laptop.entered_count(Side::Partner, svid),
                u32::from(position)
            );
        }
    }
    exit(&mut bench, 1, 3).unwrap();
    assert_eq!(bench.message(&[0x0001_A345]), NOTHING);
    assert_eq!(bench.laptop.entered_count(Side::Partner, 1), 5);
    refused(&bench, 13, |bench| exit(bench, 1, 3));
    assert_eq!(exit(&mut bench, 1, 7), sent(0x0001_A705));
    assert_eq!(bench.laptop.entered_count(Side::Partner, 1), 5);
    assert_eq!(bench.message(&[0x0001_A745]), NOTHING);
    let counts = [1, 2, 3].map(|svid| bench.laptop.entered_count(Side::Partner, svid));
    assert_eq!(counts, [0, 6, 0]);
}

#[test]
fn enter_and_exit_that_come_to_nothing_are_told_and_change_no_mark() {
    for (bench, request) in waits().into_iter().skip(3) {
        let header = u32::from(request.svid) << 16 | 0xA000 | u32::from(request.position) << 8;
        let header = header | u32::from(request.command);
        let timer: fn(&mut Laptop) -> Answer = match request.command {
            4 => Laptop::entry_timer,
            _ => Laptop::exit_timer,
        };
        let told = |reason| {
            Ok((
                None,
                Some(Told::Unmarked {
                    side: Side::Partner,
                    request,
                    reason,
                }),
            ))
        };
        let [mut nak, mut busy, mut timed, mut failed] = [(); 4].map(|()| bench.clone());
        assert_eq!(nak.message(&[header | 0x80]), told(Reason::Nak));
        assert_eq!(busy.message(&[header | 0xC0]), told(Reason::Busy));
        assert_eq!(end(&mut timed, timer), told(Reason::Timer));
        assert_eq!(
            end(&mut failed, Laptop::protocol_error),
            told(Reason::ProtocolError)
        );
        for after in [nak, busy, timed, failed] {
            assert!(after.laptop.awaited().is_none());
            assert_eq!(
                after.laptop.entered_count(Side::Partner, 1),
                bench.laptop.entered_count(Side::Partner, 1)
            );
            assert_eq!(
                after.laptop.held(Side::Partner),
                bench.laptop.held(Side::Partner)
            );
            refused(&after, 6, |bench| bench.message(&[header | 0x40]));
        }
    }
}

#[test]
fn the_right_timer_ends_a_wait_and_others_are_refused_9() {
    let timers: [fn(&mut Laptop) -> Answer; 3] = [
        Laptop::response_timer,
        Laptop::entry_timer,
        Laptop::exit_timer,
    ];
    for (bench, request) in waits() {
        let right = usize::from(request.command).saturating_sub(3);
        for (number, timer) in timers.into_iter().enumerate() {
            if number == right {
                let mut after = bench.clone();
                assert!(end(&mut after, timer).is_ok());
                assert!(after.laptop.awaited().is_none());
                assert_eq!(
                    after.laptop.candidate(Side::Partner),
                    bench.laptop.candidate(Side::Partner)
                );
            } else {
                refused(&bench, 9, |bench| end(bench, timer));
            }
        }
    }
    for bench in idle() {
        for call in timers.into_iter().chain([Laptop::protocol_error as _]) {
            refused(&bench, 9, |bench| end(bench, call));
        }
    }
}

/// A message and every owner's call, with fitting arguments.
fn lent_calls(laptop: &Laptop, runs: &mut Runs, out: &mut [u8]) -> [Answer; 7] {
    [
        laptop
            .clone()
            .message(Side::Partner, &bytes(&IDENTITY_ACK), runs),
        laptop.clone().message(Side::Partner, &[0; 3], runs),
        laptop.clone().next(Side::Partner, runs, out),
        laptop.clone().start_over(Side::Partner, runs, out),
        laptop.clone().drop(Side::Partner, runs),
        laptop.clone().enter(Side::Partner, 1, 1, runs, out),
        laptop.clone().exit(Side::Partner, 1, 1, runs, out),
    ]
}

#[test]
fn a_short_run_is_refused_11_before_all_else() {
    let states = waits().map(|(bench, _)| bench).into_iter().chain(idle());
    for mut bench in states {
        for (held, candidate) in [(431, 432), (432, 431), (0, 0)] {
            let mut runs = Runs {
                held: &mut bench.held[..held],
                candidate: &mut bench.candidate[..candidate],
            };
            let answers = lent_calls(&bench.laptop, &mut runs, &mut [0; 28]);
            assert_eq!(answers, [Err(11); 7]);
        }
    }
}

#[test]
fn a_short_buffer_is_refused_11_after_all_else() {
    let side = Side::Partner;
    for room in 0..4 {
        for bench in [Bench::fresh(), Bench::open(), Bench::listed(13)] {
            for asking in [Call::Next(side), Call::StartOver(side)] {
                refused(&bench, 11, |bench| call_in(bench, room, asking));
            }
        }
        let numbers = [
            (1, 1, 13, 11),
            (1, 2, 11, 13),
            (1, 3, 12, 12),
            (2, 7, 12, 13),
        ];
        for (svid, position, of_enter, of_exit) in numbers {
            let enter = Call::Enter {
                side,
                svid,
                position,
            };
            let exit = Call::Exit {
                side,
                svid,
                position,
            };
            refused(&entered(), of_enter, |bench| call_in(bench, room, enter));
            refused(&entered(), of_exit, |bench| call_in(bench, room, exit));
        }
        for (bench, _) in waits() {
            refused(&bench, 7, |bench| call_in(bench, room, Call::Next(side)));
        }
    }
    let mut bench = Bench::fresh();
    let seen = call_in(&mut bench, 4, Call::Next(side));
    assert_eq!(seen, sent(ASK_IDENTITY));
}
