//! Two links at one laptop (02, R-4): the wait that they share, and that they share nothing else.

use crate::partner::*;
use second::call::Call;
use second::link_events::checks::Observed;
use second::link_events::generator::{generate, stored_stream};
use second::link_events::{Event, Outcome, Start, System};
use second::side::Side;

const ACCEPTED: Outcome = Outcome {
    permitted: true,
    refusal: Some(0),
};

fn refused(refusal: u8) -> Outcome {
    Outcome {
        permitted: true,
        refusal: Some(refusal),
    }
}

/// The partner lists 13 SVIDs and the cable two; these events are accepted.
fn after(events: &[Event]) -> System {
    let mut system = System::begin(&start(13));
    for event in events {
        assert_eq!(system.take(event), ACCEPTED, "{event:?}");
    }
    system
}

/// Long streams, and some of each sort of the short ones.
fn streams() -> Vec<(Start, Vec<Event>)> {
    let long = [1, 12, 36, 59, 72].map(generate);
    let short = (2..1600).step_by(7).map(stored_stream);
    long.into_iter().chain(short).collect()
}

#[test]
fn a_call_of_either_side_is_refused_7_while_one_waits() {
    for asked in [NEXT, twin(NEXT)] {
        let mut system = after(&[asked]);
        let (side, svid, position) = (Side::Partner, 1, 1);
        let enter = Event::Call(Call::Enter {
            side,
            svid,
            position,
        });
        let exit = Event::Call(Call::Exit {
            side,
            svid,
            position,
        });
        for call in [NEXT, START_OVER, DROP, enter, exit] {
            let before = system.clone();
            assert_eq!(system.take(&call), refused(7));
            assert_eq!(system.take(&twin(call)), refused(7));
            assert_eq!(system, before);
        }
    }
}

#[test]
fn a_timer_or_protocol_error_is_of_the_side_that_waits() {
    for end in [TIMER, PROTOCOL_ERROR] {
        for (asked, side) in [(NEXT, Side::Partner), (twin(NEXT), Side::Cable)] {
            let mut system = after(&[asked]);
            assert_eq!(system.side_of(&end), side);
            assert!(system.far_end(side).link().has_request());
            assert_eq!(system.take(&end), ACCEPTED);
            assert!(!system.far_end(side).link().has_request());
            assert_eq!(system.waiting(), None);
            assert_eq!(system.side_of(&end), Side::Partner);
        }
    }
}

#[test]
fn what_is_under_way_on_one_link_does_not_matter_for_the_other() {
    let late = [NEXT, REACHES, GIVE, SENT, TIMER];
    let mut system = after(&[&late[..], &twins(&EXCHANGE)].concat());
    assert!(system.has_candidate(Side::Cable));
    assert_eq!(system.take(&NEXT), ACCEPTED);
    assert!(!system.permits(&REACHES));
    assert_eq!(system.take(&ARRIVES), ACCEPTED);
    assert!(system.has_candidate(Side::Partner));
}

#[test]
fn an_answer_is_refused_6_while_the_other_side_waits_and_a_page_drops_the_open_list() {
    let late = [&EXCHANGE[..], &[NEXT, REACHES, GIVE, TIMER, twin(NEXT)]].concat();
    let mut system = after(&late);
    assert!(system.has_candidate(Side::Partner));
    assert_eq!(system.take(&ARRIVES), refused(6));
    assert!(!system.has_candidate(Side::Partner));
    assert_eq!(system.waiting(), Some(Side::Cable));
    let asks = [&[twin(REACHES)][..], &twins(&[GIVE, ARRIVES])].concat();
    for event in asks {
        assert_eq!(system.take(&event), ACCEPTED);
    }
    assert!(system.has_candidate(Side::Cable));
}

#[test]
fn an_entered_mode_blocks_discovery_on_its_own_side_alone() {
    let gathered = twins(&EXCHANGE.repeat(4));
    let (side, svid, position) = (Side::Cable, 1, 1);
    let enter = Event::Call(Call::Enter {
        side,
        svid,
        position,
    });
    let entered = [&[enter][..], &twins(&EXCHANGE[1..])].concat();
    let mut system = after(&[gathered, entered].concat());
    assert_eq!(system.laptop().entered_count(Side::Cable, 1), 1);
    assert_eq!(system.laptop().entered_count(Side::Partner, 1), 0);
    assert_eq!(system.take(&twin(NEXT)), refused(13));
    assert_eq!(system.take(&twin(START_OVER)), refused(13));
    assert_eq!(system.take(&NEXT), ACCEPTED);
}

#[test]
fn each_side_has_its_own_old_catalogue_first_page_and_list() {
    let mut start = start(13);
    (start.cable.holds_old, start.partner.page) = (true, 1);
    let system = System::begin(&start);
    assert_eq!(system.held_bytes(Side::Partner), None);
    assert!(system.held_bytes(Side::Cable).is_some());
    let pages = Side::BOTH.map(|side| system.far_end(side).dock().page());
    let lists = Side::BOTH.map(|side| system.far_end(side).dock().svid_count());
    assert_eq!((pages, lists), ([1, 0], [13, 2]));
    start.partner.holds_old = true;
    let both = System::begin(&start);
    let held = Side::BOTH.map(|side| both.held_bytes(side));
    assert_eq!(held[0], held[1]);
    assert_eq!(both.waiting(), None);
}

/// The events of a stream that concern the side, less its calls that are refused 7 because the other
/// side waits, each with what it led to.
fn history(side: Side, start: &Start, events: &[Event]) -> Vec<(Event, Outcome, Observed)> {
    let mut system = System::begin(start);
    let mut history = Vec::new();
    for event in events {
        let concerned = system.side_of(event) == side;
        let other_waits = system.waiting() == Some(side.other());
        let outcome = system.take(event);
        if concerned && !(outcome == refused(7) && other_waits) {
            history.push((*event, outcome, Observed::of(&system, side)));
        }
    }
    history
}

#[test]
fn without_the_other_side_s_events_each_side_has_the_same_history() {
    for (start, events) in streams() {
        for side in Side::BOTH {
            let beside_other = history(side, &start, &events);
            let alone: Vec<Event> = beside_other.iter().map(|(event, ..)| *event).collect();
            assert!(history(side, &start, &alone) == beside_other);
        }
    }
}

#[test]
fn with_the_sides_exchanged_each_has_what_the_other_had() {
    for (start, events) in streams() {
        let exchanged_start = Start::each(|side| start[side.other()].clone());
        let mut system = System::begin(&start);
        let mut exchanged = System::begin(&exchanged_start);
        for event in events {
            assert_eq!(exchanged.take(&twin(event)), system.take(&event));
        }
        for side in Side::BOTH {
            let [was, is] = [(&system, side), (&exchanged, side.other())]
                .map(|(system, side)| Observed::of(system, side));
            assert!(was == is);
        }
    }
}
