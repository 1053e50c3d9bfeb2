//! The link of demand 3: what it permits and what becomes of it, by 01 and by hand.

use crate::partner::*;
use second::call::Call;
use second::laptop::Candidate;
use second::link_events::generator::generate;
use second::link_events::{Event, FarEnd, Outcome, SideStart, Start, System};
use second::side::Side;

const ACCEPTED: Outcome = Outcome {
    permitted: true,
    refusal: Some(0),
};
/// An event that makes no call.
const HAPPENED: Outcome = Outcome {
    permitted: true,
    refusal: None,
};
const NOT_PERMITTED: Outcome = Outcome {
    permitted: false,
    refusal: None,
};
/// A request and its answer, which is taken.
const TAKEN: [Event; 4] = [NEXT, REACHES, GIVE, ARRIVES];

fn refused(refusal: u8) -> Outcome {
    Outcome {
        permitted: true,
        refusal: Some(refusal),
    }
}

fn begin(count: u16) -> System {
    System::begin(&start(count))
}

/// Each event must be permitted and accepted.
fn accept(system: &mut System, events: &[Event]) {
    for event in events {
        let outcome = system.take(event);
        assert!(outcome == ACCEPTED || outcome == HAPPENED, "{event:?}");
    }
}

fn exchange(system: &mut System) {
    accept(system, &TAKEN);
    accept(system, &[SENT]);
}

/// The list is open.
fn open(count: u16) -> System {
    let mut system = begin(count);
    exchange(&mut system);
    system
}

/// The events other than calls that are permitted.
fn permitted(system: &System) -> Vec<Event> {
    let events = Event::beside_calls().into_iter();
    events.filter(|event| system.permits(event)).collect()
}

fn has_candidate(system: &System) -> bool {
    system.has_candidate(Side::Partner)
}

fn dock_end(system: &System) -> &FarEnd {
    system.far_end(Side::Partner)
}

fn page_and_lost(system: &System) -> (usize, usize) {
    let dock_end = dock_end(system);
    (dock_end.dock().page(), dock_end.confirmations_lost())
}

fn whole(system: &System) -> Option<Vec<u8>> {
    Some(dock_end(system).data().catalogue_bytes())
}

#[test]
fn nothing_is_on_its_way_at_the_start() {
    assert_eq!(permitted(&begin(3)), []);
}

#[test]
fn a_request_reaches_the_dock_or_is_lost() {
    let mut system = begin(3);
    assert_eq!(system.take(&NEXT), ACCEPTED);
    let on_its_way = [TIMER, REACHES, REQUEST_LOST];
    assert_eq!(permitted(&system), on_its_way);
    let mut lost = system.clone();
    assert_eq!(lost.take(&REQUEST_LOST), HAPPENED);
    assert_eq!(permitted(&lost), [TIMER]);
    assert_eq!(lost.take(&NEXT), refused(7));
    assert_eq!(system.take(&REACHES), ACCEPTED);
    assert_eq!(permitted(&system), [TIMER, GIVE, BUSY]);
}

#[test]
fn a_request_not_yet_at_the_dock_when_its_wait_ends_is_lost() {
    for end in [TIMER, PROTOCOL_ERROR] {
        let mut system = begin(3);
        accept(&mut system, &[NEXT, end]);
        assert_eq!(permitted(&system), []);
        assert_eq!(system.take(&REACHES), NOT_PERMITTED);
    }
}

#[test]
fn calls_are_always_permitted_and_a_timer_only_in_a_wait() {
    let mut system = begin(3);
    assert_eq!(system.take(&PROTOCOL_ERROR), refused(9));
    assert_eq!(system.take(&TIMER), NOT_PERMITTED);
    let (svid, position) = (1, 1);
    let enter = Event::Call(Call::Enter {
        side: Side::Partner,
        svid,
        position,
    });
    assert_eq!(system.take(&enter), refused(12));
}

#[test]
fn an_answer_arrives_or_is_lost_and_its_end_is_heard_once() {
    for heard in [SENT, FAILED] {
        let mut system = begin(3);
        accept(&mut system, &TAKEN);
        assert_eq!(permitted(&system), [SENT, FAILED]);
        accept(&mut system, &[heard]);
        assert_eq!(permitted(&system), []);
    }
    let mut system = begin(3);
    accept(&mut system, &TAKEN[..3]);
    accept(&mut system, &[ANSWER_LOST]);
    assert_eq!(permitted(&system), [TIMER, FAILED]);
}

#[test]
fn an_answer_may_arrive_after_failed_and_must_after_sent() {
    let mut failed = begin(3);
    accept(&mut failed, &TAKEN[..3]);
    let mut sent = failed.clone();
    accept(&mut failed, &[FAILED]);
    let either = [TIMER, ARRIVES, ANSWER_LOST];
    assert_eq!(permitted(&failed), either);
    accept(&mut failed, &[ARRIVES]);
    assert!(has_candidate(&failed));
    accept(&mut sent, &[SENT]);
    assert_eq!(permitted(&sent), [TIMER, ARRIVES]);
    accept(&mut sent, &[TIMER, NEXT]);
    assert_eq!(sent.take(&REACHES), NOT_PERMITTED);
    accept(&mut sent, &[ARRIVES]);
    assert!(has_candidate(&sent));
}

#[test]
fn none_arrives_after_a_later_request_has_reached_the_dock() {
    let mut system = open(13);
    accept(&mut system, &TAKEN[..3]);
    accept(&mut system, &[TIMER, NEXT, REACHES]);
    assert_eq!(permitted(&system), [TIMER, GIVE, BUSY]);
    assert_eq!(page_and_lost(&system), (0, 0));
}

#[test]
fn a_late_answer_is_taken_for_a_newer_request_which_is_lost() {
    let mut system = open(13);
    accept(&mut system, &TAKEN[..3]);
    accept(&mut system, &[TIMER, NEXT, ARRIVES]);
    assert_eq!(system.laptop().page_count(Side::Partner), 1);
    assert_eq!(system.laptop().awaited(), None);
    assert_eq!(permitted(&system), [SENT, FAILED]);
    accept(&mut system, &[SENT]);
    assert_eq!(page_and_lost(&system), (1, 0));
}

#[test]
fn a_late_page_with_nothing_awaited_ends_the_gathering() {
    let mut system = open(13);
    accept(&mut system, &TAKEN[..3]);
    accept(&mut system, &[TIMER]);
    assert_eq!(system.take(&ARRIVES), refused(6));
    assert!(!has_candidate(&system));
    assert_eq!(system.laptop().page_count(Side::Partner), 0);
}

#[test]
fn policy_gives_what_the_data_holds_or_says_busy() {
    let mut system = open(2);
    accept(&mut system, &TAKEN[..2]);
    accept(&mut system, &[BUSY, ARRIVES, SENT]);
    assert_eq!(system.laptop().page_count(Side::Partner), 0);
    exchange(&mut system);
    for _ in 1..=2 {
        exchange(&mut system);
    }
    assert_eq!(system.held_bytes(Side::Partner), whole(&system));
    let (svid, position) = (2, 1);
    let enter = Event::Call(Call::Enter {
        side: Side::Partner,
        svid,
        position,
    });
    accept(&mut system, &[enter]);
    accept(&mut system, &TAKEN[1..]);
    assert_eq!(system.laptop().entered_count(Side::Partner, 2), 1);
}

#[test]
fn an_empty_list_is_answered_with_nak_and_published() {
    let mut system = open(0);
    exchange(&mut system);
    assert_eq!(system.held_bytes(Side::Partner), whole(&system));
    assert_eq!(system.laptop().page_count(Side::Partner), 0);
}

/// Each way in which the confirmation of a counted page is lost, before the next request or with it.
#[test]
fn a_counted_page_before_the_last_that_stays_unconfirmed_is_a_confirmation_lost() {
    let ways: [(&[Event], usize); 4] = [
        (&[ARRIVES, FAILED], 1),
        (&[FAILED, ARRIVES], 1),
        (&[ARRIVES], 0),
        (&[ARRIVES, SENT], 0),
    ];
    for (way, lost) in ways {
        let mut system = open(13);
        accept(&mut system, &TAKEN[..3]);
        accept(&mut system, way);
        assert_eq!(dock_end(&system).confirmations_lost(), lost, "{way:?}");
        let was_confirmed = way.ends_with(&[SENT]);
        accept(&mut system, &[NEXT, REACHES]);
        assert_eq!(
            dock_end(&system).confirmations_lost(),
            usize::from(!was_confirmed)
        );
    }
}

#[test]
fn a_lost_answer_a_last_page_and_busy_are_no_confirmation_lost() {
    let mut system = open(13);
    accept(&mut system, &TAKEN[..3]);
    let lost = [ANSWER_LOST, FAILED, TIMER];
    accept(&mut system, &lost);
    accept(&mut system, &TAKEN[..2]);
    accept(&mut system, &[BUSY, ARRIVES, FAILED]);
    exchange(&mut system);
    accept(&mut system, &TAKEN);
    accept(&mut system, &[FAILED]);
    assert_eq!(
        (
            system.laptop().page_count(Side::Partner),
            dock_end(&system).confirmations_lost()
        ),
        (2, 0)
    );
}

#[test]
fn a_gathering_opens_with_no_confirmation_lost() {
    let mut system = open(13);
    accept(&mut system, &TAKEN);
    accept(&mut system, &[FAILED, DROP, NEXT]);
    assert_eq!(dock_end(&system).confirmations_lost(), 1);
    accept(&mut system, &TAKEN[1..]);
    assert_eq!(dock_end(&system).confirmations_lost(), 0);
}

#[test]
fn case_11_over_the_link_receives_three_pages() {
    let mut system = open(13);
    accept(&mut system, &TAKEN);
    accept(&mut system, &[FAILED]);
    exchange(&mut system);
    exchange(&mut system);
    assert_eq!(system.laptop().page_count(Side::Partner), 3);
    assert!(matches!(
        system.laptop().candidate(Side::Partner),
        Candidate::ListDone(_)
    ));
}

#[test]
fn the_dock_starts_at_the_page_given_or_at_its_last() {
    for (count, page, expected) in [(0, 9, 0), (11, 3, 0), (13, 1, 1), (72, 4, 4), (72, 255, 6)] {
        let partner = SideStart {
            page,
            ..side_start(count)
        };
        let system = System::begin(&Start {
            partner,
            ..start(0)
        });
        assert_eq!(dock_end(&system).dock().page(), expected);
        assert_eq!(permitted(&system), []);
    }
}

#[test]
fn an_old_catalogue_is_held_at_the_start_if_there_is_one() {
    assert_eq!(begin(3).held_bytes(Side::Partner), None);
    let partner = SideStart {
        holds_old: true,
        ..side_start(3)
    };
    let system = System::begin(&Start {
        partner,
        ..start(0)
    });
    let identity = [3, 1, 0, 0, 0, 2, 0, 0, 0, 3, 0, 0, 0];
    let svid = [0x10, 0x34, 0x12, 0x20, 0x55, 0, 0, 0, 0];
    let old = [&identity[..], &svid].concat();
    assert_eq!(system.held_bytes(Side::Partner), Some(old));
    assert!(!has_candidate(&system) && system.laptop().awaited().is_none());
    assert_eq!(dock_end(&system).dock().svid_count(), 3);
}

#[test]
fn what_is_not_permitted_changes_nothing() {
    let (start, events) = generate(13);
    let mut system = System::begin(&start);
    for event in events {
        for other in Event::beside_calls() {
            if !system.permits(&other) {
                let before = system.clone();
                assert_eq!(system.take(&other), NOT_PERMITTED);
                assert_eq!(system, before);
            }
        }
        system.take(&event);
    }
}
