//! Demand 3: it holds on generated streams of every length, and each way to break it is noticed.

use crate::partner::*;
use second::edition::Edition;
use second::laptop::Candidate;
use second::link_events::checks::{
    Demand, Observed, CHANGED_BY_REFUSED, CHANGED_EARLY, ENDED_UNFINISHED, NEITHER_OLD_NOR_WHOLE,
    NOT_LOWERED, NOT_PUBLISHED, OTHER_SIDE_CHANGED, REFUSED_UNFAIRLY, WRONG_LIST, WRONG_SUM,
};
use second::link_events::generator::generate;
use second::link_events::tally::{of_one_stream, Tally};
use second::link_events::{Event, FarEnd, Outcome, SideStart, Start, System};
use second::side::{Side, Sides};

/// A system under its events so far, with the demand that they keep.
struct Course {
    /// The side that stands where the test says partner.
    side: Side,
    system: System,
    demand: Demand,
}

impl Course {
    fn begin(side: Side, start: &Start) -> Self {
        let system = System::begin(&Start::each(|each| match side {
            Side::Partner => start[each].clone(),
            Side::Cable => start[each.other()].clone(),
        }));
        Course {
            side,
            demand: Demand::of(&system),
            system,
        }
    }

    /// What the demand says if the event of the partner, or its twin, leads to what `change` makes of
    /// both sides, the one that stands for the partner first.
    fn take(
        &mut self,
        event: Event,
        change: impl FnOnce(&mut Outcome, [&mut Observed; 2]),
    ) -> Result<(), &'static str> {
        let event = match self.side {
            Side::Partner => event,
            Side::Cable => twin(event),
        };
        let concerned = self.system.side_of(&event);
        let mut outcome = self.system.take(&event);
        let mut now = Observed::of_both(&self.system);
        let Sides { partner, cable } = &mut now;
        match self.side {
            Side::Partner => change(&mut outcome, [partner, cable]),
            Side::Cable => change(&mut outcome, [cable, partner]),
        }
        self.demand.check(concerned, &event, outcome, now)
    }

    fn still_needed(&self) -> usize {
        self.demand.still_needed(self.side)
    }

    fn observed(&self) -> Observed {
        Observed::of(&self.system, self.side)
    }

    fn far_end(&self) -> &FarEnd {
        self.system.far_end(self.side)
    }
}

/// So many SVIDs at the partner.
fn begin(count: u16, holds_old: bool) -> Start {
    let partner = SideStart {
        holds_old,
        ..side_start(count)
    };
    Start {
        partner,
        ..start(0)
    }
}

/// After so many exchanges and these events, and after their twins with the sides exchanged.
fn after(start: Start, exchanges: usize, events: &[Event]) -> [Course; 2] {
    let events = [&EXCHANGE.repeat(exchanges), events].concat();
    Side::BOTH.map(|side| {
        let mut course = Course::begin(side, &start);
        for &event in &events {
            assert_eq!(course.take(event, |_, _| {}), Ok(()));
        }
        course
    })
}

/// What the demand says of both if the event leads to what `change` makes of the partner.
fn changed(
    courses: [Course; 2],
    event: Event,
    change: impl Fn(&mut Observed),
) -> Result<(), &'static str> {
    let [partner, cable] = courses.map(|mut course| course.take(event, |_, [now, _]| change(now)));
    assert_eq!(partner, cable);
    partner
}

/// The last answer needed by one SVID is under way.
fn last_answer(holds_old: bool) -> [Course; 2] {
    after(begin(1, holds_old), 2, &EXCHANGE[..3])
}

fn unchanged(_: &mut Observed) {}

#[test]
fn streams_of_every_length_keep_the_demand_and_leave_nothing_out() {
    for seed in 0..73 {
        let (start, events) = generate(seed);
        let lengths = [&start.partner, &start.cable].map(|side| side.data.svids.len() as u64);
        assert_eq!(lengths, [72 - seed, seed]);
        let mut tally = Tally::default();
        assert_eq!(tally.count_stream(&start, &events), Ok(()));
        let missing = tally.missing(&of_one_stream(&start));
        assert_eq!(missing, Vec::<String>::new(), "{seed}");
    }
}

#[test]
fn the_200th_page_may_end_the_list_over_the_link() {
    for seed in 0..73 {
        let (start, events) = generate(seed);
        let mut system = System::begin(&start);
        let mut ended = Sides::default();
        for event in &events {
            system.take(event);
            let laptop = system.laptop();
            for side in Side::BOTH {
                let is_done = matches!(laptop.candidate(side), Candidate::ListDone(_));
                ended[side] |= is_done && laptop.page_count(side) == 200;
            }
        }
        let may_end = Sides::each(|side| start[side].data.svids.len() >= 12);
        assert_eq!(ended, may_end, "{seed}");
    }
}

#[test]
fn the_last_answer_needed_makes_the_whole_catalogue_held() {
    for holds_old in [false, true] {
        let [course, _] = last_answer(holds_old);
        let old = course.observed().held;
        let state = || last_answer(holds_old);
        assert_eq!(changed(state(), ARRIVES, unchanged), Ok(()));
        let kept = changed(state(), ARRIVES, |now| now.held = old.clone());
        assert_eq!(kept, Err(NOT_PUBLISHED));
        let mixed = changed(state(), ARRIVES, |now| {
            now.held.as_mut().unwrap().pop();
        });
        assert_eq!(mixed, Err(NEITHER_OLD_NOR_WHOLE));
    }
}

#[test]
fn an_empty_list_is_published_with_its_nak() {
    let nak = || after(begin(0, true), 1, &EXCHANGE[..3]);
    assert_eq!(changed(nak(), ARRIVES, unchanged), Ok(()));
    let old = nak()[0].observed().held;
    let kept = changed(nak(), ARRIVES, |now| now.held = old.clone());
    assert_eq!(kept, Err(NOT_PUBLISHED));
}

#[test]
fn what_is_held_changes_with_no_other_event() {
    for event in [NEXT, SENT, REACHES, TIMER] {
        for holds_old in [false, true] {
            let state = after(begin(1, holds_old), 2, &EXCHANGE[..2]);
            let whole = state[0].far_end().data().catalogue_bytes();
            let result = changed(state, event, |now| now.held = Some(whole.clone()));
            assert_eq!(result, Err(CHANGED_EARLY));
        }
    }
    let old = || after(begin(1, true), 0, &[]);
    let held = old()[0].observed().held;
    let state = after(begin(1, true), 3, &[]);
    let back = changed(state, NEXT, |now| now.held = held.clone());
    assert_eq!(back, Err(CHANGED_EARLY));
    let none = changed(old(), NEXT, |now| now.held = None);
    assert_eq!(none, Err(NEITHER_OLD_NOR_WHOLE));
}

#[test]
fn a_completed_gathering_has_its_pages_and_the_confirmations_lost() {
    for (pages, lost, expected) in [
        (1, 0, Ok(())),
        (2, 1, Err(WRONG_SUM)),
        (0, 0, Err(WRONG_SUM)),
        (2, 0, Err(WRONG_SUM)),
        (1, 1, Err(WRONG_SUM)),
    ] {
        let result = changed(last_answer(false), ARRIVES, |now| {
            (now.page_count, now.confirmations_lost) = (pages, lost);
        });
        assert_eq!(result, expected);
    }
}

/// What both courses still need.
fn still_needed(courses: [Course; 2]) -> usize {
    let [partner, cable] = courses.map(|course| course.still_needed());
    assert_eq!(partner, cable);
    partner
}

#[test]
fn the_number_still_needed_is_told_from_the_dock() {
    for (count, needed) in [(0, 2), (1, 3), (11, 13), (12, 15), (13, 16), (72, 80)] {
        let exchanges = |k| still_needed(after(begin(count, true), k, &[]));
        for done in 0..needed {
            assert_eq!(exchanges(done), needed - done);
        }
        assert_eq!(exchanges(needed), 0);
        assert_eq!(exchanges(needed + 1), needed - 1);
    }
}

#[test]
fn a_page_that_comes_again_and_busy_lower_nothing() {
    let unconfirmed = [&EXCHANGE[..4], &[FAILED]].concat();
    let needed = |events: &[Event]| still_needed(after(begin(13, true), 1, events));
    assert_eq!(needed(&unconfirmed), 14);
    assert_eq!(needed(&[&unconfirmed[..], &EXCHANGE].concat()), 14);
    assert_eq!(needed(&[NEXT, REACHES, BUSY, ARRIVES]), 15);
    for call in [DROP, START_OVER] {
        let given_up = after(begin(13, true), 5, &[call]);
        assert_eq!(still_needed(given_up), 16);
    }
}

#[test]
fn a_laptop_that_asks_again_for_what_has_come_gets_nowhere() {
    let [mut course, _] = after(begin(13, true), 0, &EXCHANGE[..3]);
    let stuck = Observed::of_both(&course.system);
    let outcome = course.system.take(&ARRIVES);
    let mut check = || {
        let demand = &mut course.demand;
        demand.check(Side::Partner, &ARRIVES, outcome, stuck.clone())
    };
    assert_eq!(check(), Ok(()));
    assert_eq!(check(), Err(NOT_LOWERED));
}

#[test]
fn a_gathering_that_begins_anew_without_a_reason_is_noticed() {
    let asking = after(begin(13, true), 1, &[START_OVER]);
    let awaited = asking[0].observed().awaited;
    let open = || after(begin(13, true), 1, &[]);
    let anew = changed(open(), NEXT, |now| now.awaited = awaited);
    assert_eq!(anew, Err(ENDED_UNFINISHED));
}

#[test]
fn a_list_that_has_come_whole_is_the_dock_s() {
    let whole = || after(begin(13, true), 2, &EXCHANGE[..3]);
    assert_eq!(changed(whole(), ARRIVES, unchanged), Ok(()));
    let short = changed(whole(), ARRIVES, |now| match &mut now.candidate {
        Candidate::ListDone(gathered) => gathered.svids.truncate(12),
        _ => unreachable!("the list is done"),
    });
    assert_eq!(short, Err(WRONG_LIST));
    let open = whole()[0].observed().candidate;
    let acknowledged = changed(whole(), ARRIVES, |now| now.candidate = open.clone());
    assert_eq!(acknowledged, Err(WRONG_LIST));
}

#[test]
fn lists_of_12_to_72_count_a_page_for_each_twelve() {
    for (count, pages) in [(11, 1), (12, 2), (13, 2), (24, 3), (72, 7)] {
        let exchanges = 1 + pages + usize::from(count);
        for course in after(begin(count, true), exchanges, &[]) {
            let observed = course.observed();
            assert_eq!(observed.page_count, pages);
            let whole = course.far_end().data().catalogue_bytes();
            assert_eq!(observed.held, Some(whole));
        }
    }
}

#[test]
fn refusals_1_to_5_and_8_are_unfair() {
    for refusal in 0..=14 {
        for mut course in after(begin(13, false), 1, &EXCHANGE[..3]) {
            let refused = |outcome: &mut Outcome, _: [&mut Observed; 2]| {
                outcome.refusal = Some(refusal);
            };
            let result = course.take(ARRIVES, refused);
            let is_unfair = (1..=5).contains(&refusal) || refusal == 8;
            assert_eq!(result == Err(REFUSED_UNFAIRLY), is_unfair, "{refusal}");
            assert_eq!(result.is_err(), is_unfair);
        }
    }
}

#[test]
fn a_gathering_ends_unfinished_only_for_a_reason() {
    let ended = |now: &mut Observed| now.candidate = Candidate::None;
    let open = |events: &[Event]| after(begin(13, false), 1, events);
    assert_eq!(changed(open(&[]), NEXT, ended), Err(ENDED_UNFINISHED));
    assert_eq!(changed(open(&[NEXT]), TIMER, ended), Err(ENDED_UNFINISHED));
    let page = changed(open(&EXCHANGE[..3]), ARRIVES, ended);
    assert_eq!(page, Err(ENDED_UNFINISHED));
    for call in [DROP, START_OVER] {
        assert_eq!(changed(open(&[]), call, unchanged), Ok(()));
    }
    let late = open(&[NEXT, REACHES, GIVE, TIMER]);
    assert_eq!(changed(late, ARRIVES, unchanged), Ok(()));
}

#[test]
fn a_page_that_fits_is_no_reason_to_end_a_gathering() {
    for mut course in after(begin(13, false), 1, &EXCHANGE[..3]) {
        let result = course.take(ARRIVES, |outcome, [now, _]| {
            outcome.refusal = Some(6);
            now.candidate = Candidate::None;
        });
        assert_eq!(result, Err(ENDED_UNFINISHED));
    }
}

#[test]
fn a_late_page_ends_a_gathering_though_the_other_side_waits() {
    let late = [NEXT, REACHES, GIVE, TIMER, twin(NEXT)];
    let late = || after(begin(13, false), 1, &late);
    assert_eq!(still_needed(late()), 15);
    for mut course in late() {
        let is_dropped = |outcome: &mut Outcome, [now, _]: [&mut Observed; 2]| {
            assert_eq!(outcome.refusal, Some(6));
            assert_eq!(now.candidate, Candidate::None);
        };
        assert_eq!(course.take(ARRIVES, is_dropped), Ok(()));
        assert_eq!(course.still_needed(), 16);
    }
}

#[test]
fn no_event_changes_anything_of_the_other_side() {
    let changes: [fn(&mut Observed); 11] = [
        |other| other.held = Some(Vec::new()),
        |other| other.candidate = Candidate::None,
        |other| other.awaited = None,
        |other| other.request = None,
        |other| other.answer = None,
        |other| other.edition = Edition::OneZero,
        |other| other.page_count += 1,
        |other| other.confirmations_lost += 1,
        |other| *other.entered.entry(1).or_default() |= 1,
        |other| other.runs.held[431] += 1,
        |other| other.far_end = FarEnd::begin(&side_start(2)),
    ];
    let other = twins(&[&EXCHANGE[..], &EXCHANGE[..3]].concat());
    let before = |event| match event {
        TIMER => vec![TIMER, NEXT],
        DROP => vec![TIMER],
        _ => vec![],
    };
    for event in [SENT, DROP, TIMER] {
        let events = [&other[..], &before(event)].concat();
        for change in changes {
            for mut course in after(begin(13, false), 1, &events) {
                let was = Observed::of(&course.system, course.side.other());
                let mut is = was.clone();
                change(&mut is);
                let result = course.take(event, |_, [_, other]| change(other));
                let expected = if is == was {
                    Ok(())
                } else {
                    Err(OTHER_SIDE_CHANGED)
                };
                assert_eq!(result, expected);
            }
        }
    }
}

#[test]
fn a_call_refused_7_because_the_other_side_waits_changes_nothing() {
    let waiting = || after(begin(13, false), 1, &[twin(NEXT)]);
    for call in [NEXT, DROP, START_OVER] {
        let needed = still_needed(waiting());
        for mut course in waiting() {
            assert_eq!(
                course.take(call, |outcome, _| assert_eq!(outcome.refusal, Some(7))),
                Ok(())
            );
            assert_eq!(course.still_needed(), needed);
        }
        let dropped = changed(waiting(), call, |now| now.candidate = Candidate::None);
        assert_eq!(dropped, Err(CHANGED_BY_REFUSED));
    }
}
