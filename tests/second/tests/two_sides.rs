//! The two sides of the laptop end (02, R-4), held against values worked out by hand.

use second::call::Call;
use second::laptop::{Candidate, Laptop, Reason, Told};
use second::laptop_events::{Event, Lengths, Outcome, Run};
use second::lent_runs::LentRuns;
use second::messages::{read, Request};
use second::side::Side;

const IDENTITY: [u32; 4] = [0xFF00_A041, 1, 2, 3];
/// A full page of the SVIDs 1 to 12.
const FULL: [u32; 7] = [
    0xFF00_A042,
    0x0001_0002,
    0x0003_0004,
    0x0005_0006,
    0x0007_0008,
    0x0009_000A,
    0x000B_000C,
];
const LAST: [u32; 2] = [0xFF00_A042, 0x0001_0000];
const MODES: [u32; 3] = [0x0001_A043, 0x405, 0x406];
const ASK_IDENTITY: u32 = 0xFF00_A801;
const ASK_LIST: u32 = 0xFF00_A002;

fn call(run: &mut Run, call: Call) -> Outcome {
    run.take(&Event::Call(call))
}

fn message(run: &mut Run, side: Side, objects: &[u32]) -> Outcome {
    let words = objects.iter().flat_map(|word| word.to_le_bytes());
    let bytes = words.collect();
    run.take(&Event::Message { side, bytes })
}

fn next(run: &mut Run, side: Side) -> Outcome {
    call(run, Call::Next(side))
}

fn enter(side: Side, svid: u16, position: u8) -> Call {
    Call::Enter {
        side,
        svid,
        position,
    }
}

fn exit(side: Side, svid: u16, position: u8) -> Call {
    Call::Exit {
        side,
        svid,
        position,
    }
}

/// Every owner's call for a side.
fn owners_calls(side: Side) -> [Call; 5] {
    [
        Call::Next(side),
        Call::StartOver(side),
        Call::Drop(side),
        enter(side, 1, 1),
        exit(side, 1, 7),
    ]
}

fn lend(run: &mut Run, side: Side, candidate: u16, held: u16) {
    let lengths = Lengths {
        candidate,
        held,
        ..Lengths::WHOLE
    };
    run.take(&Event::Lengths { side, lengths });
}

/// The header sent.
fn sent(outcome: &Outcome) -> u32 {
    u32::from_le_bytes(outcome.sent[..].try_into().unwrap())
}

/// A request of next, and its answer.
fn exchange(run: &mut Run, side: Side, answer: &[u32]) {
    assert_eq!(next(run, side).refusal, 0);
    assert_eq!(message(run, side, answer).refusal, 0);
}

fn open(run: &mut Run, side: Side) {
    exchange(run, side, &IDENTITY);
}

/// A catalogue of one SVID with two modes.
fn hold(run: &mut Run, side: Side) {
    open(run, side);
    exchange(run, side, &LAST);
    exchange(run, side, &MODES);
    assert!(run.laptop().held(side).is_some());
}

fn entered(run: &mut Run, side: Side) {
    hold(run, side);
    assert_eq!(call(run, enter(side, 1, 1)).refusal, 0);
    assert_eq!(message(run, side, &[0x0001_A144]).refusal, 0);
}

/// The side awaits each command from 1 to 5; with each the answer that fits.
fn waits(side: Side) -> [(Run, Vec<u32>); 5] {
    let [mut identity, mut list, mut modes, mut entering, mut exiting] =
        [(); 5].map(|()| Run::default());
    next(&mut identity, side);
    open(&mut list, side);
    next(&mut list, side);
    open(&mut modes, side);
    exchange(&mut modes, side, &LAST);
    next(&mut modes, side);
    hold(&mut entering, side);
    call(&mut entering, enter(side, 1, 2));
    entered(&mut exiting, side);
    call(&mut exiting, exit(side, 1, 7));
    [
        (identity, IDENTITY.to_vec()),
        (list, LAST.to_vec()),
        (modes, MODES.to_vec()),
        (entering, vec![0x0001_A244]),
        (exiting, vec![0x0001_A745]),
    ]
}

/// How the laptop and all four runs stand.
fn standing(run: &Run) -> (Laptop, [LentRuns; 2]) {
    let runs = Side::BOTH.map(|side| run.runs(side).clone());
    (run.laptop().clone(), runs)
}

/// Refused with this number, and nothing changed.
fn assert_refused(run: &mut Run, refusal: u8, event: impl FnOnce(&mut Run) -> Outcome) {
    let before = standing(run);
    let outcome = event(run);
    assert_eq!(outcome.refusal, refusal);
    assert!(outcome.sent.is_empty() && outcome.told.is_none());
    assert!(standing(run) == before);
}

#[test]
fn a_call_for_either_side_is_refused_7_while_one_of_them_waits() {
    for side in Side::BOTH {
        for (mut run, answer) in waits(side) {
            for of in Side::BOTH {
                for owners in owners_calls(of) {
                    assert_refused(&mut run, 7, |run| call(run, owners));
                }
            }
            assert_eq!(message(&mut run, side, &answer).refusal, 0);
            assert_ne!(next(&mut run, side.other()).refusal, 7);
        }
    }
}

#[test]
fn a_short_run_of_its_own_side_is_11_before_7_and_one_of_the_other_refuses_nothing() {
    for side in Side::BOTH {
        let other = side.other();
        for (mut run, answer) in waits(other) {
            for (candidate, held) in [(431, 432), (432, 431)] {
                lend(&mut run, side, candidate, held);
                for owners in owners_calls(side) {
                    assert_refused(&mut run, 11, |run| call(run, owners));
                }
                for owners in owners_calls(other) {
                    assert_refused(&mut run, 7, |run| call(run, owners));
                }
                assert_refused(&mut run, 11, |run| message(run, side, &FULL));
            }
            assert_eq!(message(&mut run, other, &answer).refusal, 0);
            assert_refused(&mut run, 11, |run| next(run, side));
        }
    }
}

#[test]
fn an_answer_from_the_side_not_awaited_is_refused_6_and_leaves_all_alone() {
    for side in Side::BOTH {
        let other = side.other();
        for (mut run, answer) in waits(side) {
            for kind in [0x80, 0xC0] {
                let header = (answer[0] & !0xC0) | kind;
                assert_refused(&mut run, 6, |run| message(run, other, &[header]));
            }
            assert_refused(&mut run, 6, |run| message(run, other, &answer));
            assert_eq!(message(&mut run, side, &answer).refusal, 0);
            assert!(run.laptop().awaited().is_none());
        }
    }
}

#[test]
fn a_page_drops_the_open_list_of_its_side_though_the_other_waits() {
    for side in Side::BOTH {
        let other = side.other();
        for page in [&FULL[..], &LAST, &[0xFF00_A042, 0]] {
            let mut run = Run::default();
            open(&mut run, side);
            exchange(&mut run, side, &FULL);
            next(&mut run, other);
            let before = run.laptop().clone();
            assert_eq!(message(&mut run, side, page).refusal, 6);
            let laptop = run.laptop();
            assert_eq!(*laptop.candidate(side), Candidate::None);
            assert_eq!(laptop.page_count(side), 1);
            assert_eq!(laptop.awaited(), before.awaited());
            assert_eq!(message(&mut run, other, &IDENTITY).refusal, 0);
        }
    }
}

/// A list that is done is no open one, and the list of the side that waits is not dropped either.
#[test]
fn a_page_drops_no_other_candidate() {
    for side in Side::BOTH {
        let other = side.other();
        let mut run = Run::default();
        open(&mut run, side);
        exchange(&mut run, side, &LAST);
        open(&mut run, other);
        next(&mut run, other);
        assert_refused(&mut run, 6, |run| message(run, side, &LAST));
        assert_refused(&mut run, 6, |run| message(run, side, &FULL));
        for answer in [&[0xFF00_A082][..], &[0xFF00_A0C2], &[0xFF00_A002]] {
            assert_refused(&mut run, 6, |run| message(run, side, answer));
        }
        assert_eq!(message(&mut run, other, &FULL).refusal, 0);
        assert_refused(&mut run, 6, |run| message(run, side, &FULL));
    }
}

/// The first page of 13 SVIDs is confirmed and comes late, while the other side waits. Ignored, the
/// second would pass for the whole list.
#[test]
fn a_confirmed_first_page_of_13_svids_is_not_ignored_while_the_other_side_waits() {
    for side in Side::BOTH {
        let mut run = Run::default();
        open(&mut run, side);
        assert_eq!(sent(&next(&mut run, side)), ASK_LIST);
        assert_eq!(call(&mut run, Call::ResponseTimer).refusal, 0);
        assert_eq!(sent(&next(&mut run, side.other())), ASK_IDENTITY);
        assert_eq!(message(&mut run, side, &FULL).refusal, 6);
        assert_eq!(call(&mut run, Call::ProtocolError).refusal, 0);
        assert_eq!(sent(&next(&mut run, side)), ASK_IDENTITY);
        let second = [0xFF00_A042, 0x000D_0000];
        assert_refused(&mut run, 6, |run| message(run, side, &second));
    }
}

#[test]
fn entered_modes_block_discovery_on_their_own_side_only() {
    for side in Side::BOTH {
        let mut run = Run::default();
        entered(&mut run, side);
        for asking in [Call::Next, Call::StartOver] {
            assert_refused(&mut run, 13, |run| call(run, asking(side)));
            assert_eq!(sent(&call(&mut run, asking(side.other()))), ASK_IDENTITY);
            assert_eq!(message(&mut run, side.other(), &IDENTITY).refusal, 0);
        }
    }
}

#[test]
fn a_candidate_blocks_enter_on_its_own_side_only() {
    for side in Side::BOTH {
        let mut run = Run::default();
        hold(&mut run, side);
        hold(&mut run, side.other());
        for page in [&FULL[..], &[0xFF00_A042, 0x000D_0000]] {
            open(&mut run, side);
            exchange(&mut run, side, page);
            assert_refused(&mut run, 13, |run| call(run, enter(side, 1, 1)));
            assert_eq!(call(&mut run, enter(side.other(), 1, 1)).refusal, 0);
            call(&mut run, Call::EntryTimer);
            call(&mut run, Call::Drop(side));
        }
    }
}

#[test]
fn modes_marks_report_and_catalogue_are_those_of_their_own_side() {
    for side in Side::BOTH {
        let other = side.other();
        let mut run = Run::default();
        entered(&mut run, side);
        for owners in [enter(other, 1, 1), exit(other, 1, 1)] {
            assert_refused(&mut run, 12, |run| call(run, owners));
        }
        let report = |run: &mut Run, side| run.take(&Event::Report { side, svid: 1 }).report;
        assert_eq!(report(&mut run, side), Some(1));
        assert_eq!(report(&mut run, other), Some(0));
        let room = 27;
        let write = |run: &mut Run, side| run.take(&Event::WriteCatalogue { side, room });
        assert_eq!(
            write(&mut run, side).catalogue.map(|bytes| bytes.len()),
            Some(27)
        );
        assert_refused(&mut run, 12, |run| write(run, other));
        hold(&mut run, other);
        assert_refused(&mut run, 13, |run| call(run, exit(other, 1, 1)));
        assert_refused(&mut run, 13, |run| call(run, enter(side, 1, 1)));
        assert_eq!(call(&mut run, enter(other, 1, 1)).refusal, 0);
    }
}

#[test]
fn a_gathering_writes_its_own_runs_and_changes_its_own_side_only() {
    for side in Side::BOTH {
        let other = side.other();
        let mut run = Run::default();
        hold(&mut run, other);
        open(&mut run, other);
        exchange(&mut run, other, &FULL);
        let state = |run: &Run| {
            let laptop = run.laptop();
            let held = laptop.held(other).cloned();
            let count = laptop.page_count(other);
            (
                laptop.candidate(other).clone(),
                held,
                count,
                run.runs(other).clone(),
            )
        };
        let before = state(&run);
        open(&mut run, side);
        exchange(&mut run, side, &LAST);
        exchange(&mut run, side, &[0x0001_A043, 0x407]);
        assert_eq!(run.runs(side).held[..2], [0x407, 0xEEEE_EEEE]);
        assert!(state(&run) == before);
    }
}

/// Of one side 199 pages are counted and of the other one: their sum is no count.
#[test]
fn two_hundred_pages_are_counted_by_side() {
    for side in Side::BOTH {
        let other = side.other();
        let mut run = Run::default();
        open(&mut run, side);
        for _ in 0..199 {
            exchange(&mut run, side, &FULL);
        }
        open(&mut run, other);
        exchange(&mut run, other, &FULL);
        let counts = [side, other].map(|side| run.laptop().page_count(side));
        assert_eq!(counts, [199, 1]);
        next(&mut run, side);
        assert_eq!(message(&mut run, side, &FULL).refusal, 14);
        assert!(matches!(
            run.laptop().candidate(other),
            Candidate::ListOpen(_)
        ));
    }
}

#[test]
fn a_timer_or_protocol_error_concerns_the_side_that_waits() {
    let timers = [Call::ResponseTimer, Call::EntryTimer, Call::ExitTimer];
    for side in Side::BOTH {
        for (command, (run, _)) in (1..).zip(waits(side)) {
            let right = Call::timer(command);
            for end in timers.into_iter().chain([Call::ProtocolError]) {
                let (mut run, other) = (copy(&run, side), side.other());
                let taken = end == right || end == Call::ProtocolError;
                if !taken {
                    assert_refused(&mut run, 9, |run| call(run, end));
                    continue;
                }
                let request = run.laptop().awaited_from(side).unwrap();
                let outcome = call(&mut run, end);
                assert_eq!(outcome.refusal, 0);
                assert_eq!(outcome.told, told_at_end(side, request, end));
                assert_eq!(run.laptop().awaited(), None);
                assert_refused(&mut run, 9, |run| call(run, end));
                assert_eq!(sent(&next(&mut run, other)), ASK_IDENTITY);
            }
        }
    }
}

/// A run that has come to the same wait.
fn copy(run: &Run, side: Side) -> Run {
    let runs = waits(side).into_iter().map(|(run, _)| run);
    let mut same = runs.filter(|other| other.laptop() == run.laptop());
    same.next().unwrap()
}

fn told_at_end(side: Side, request: Request, end: Call) -> Option<Told> {
    let reason = match end {
        Call::ProtocolError => Reason::ProtocolError,
        _ => Reason::Timer,
    };
    (request.command >= 4).then_some(Told::Unmarked {
        side,
        request,
        reason,
    })
}

#[test]
fn what_policy_is_told_names_the_side() {
    for side in Side::BOTH {
        let [.., (mut entering, _), (mut exiting, _)] = waits(side);
        for of in Side::BOTH {
            let attention: [u8; 4] = 0x0001_A206_u32.to_le_bytes();
            let told = Told::Attention {
                side: of,
                message: read(&attention).unwrap(),
            };
            let outcome = message(&mut entering, of, &[0x0001_A206]);
            assert_eq!((outcome.refusal, outcome.told), (0, Some(told)));
        }
        let cases = [
            (&mut entering, 0x0001_A284, Reason::Nak),
            (&mut exiting, 0x0001_A7C5, Reason::Busy),
        ];
        for (run, answer, reason) in cases {
            let request = run.laptop().awaited_from(side).unwrap();
            let told = Told::Unmarked {
                side,
                request,
                reason,
            };
            assert_eq!(message(run, side, &[answer]).told, Some(told));
        }
    }
}
