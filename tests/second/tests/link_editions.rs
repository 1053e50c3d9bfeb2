//! Docks of each edition at one laptop (02, R-5): the edition of what is under way, by hand, and that
//! another one breaks the demand.

use crate::partner::*;
use second::call::Call;
use second::edition::Edition::{self, OneZero, TwoOne, TwoZero};
use second::link_events::checks::{
    Demand, Observed, ANSWER_AT_OTHER_EDITION, REQUEST_AT_OTHER_EDITION,
};
use second::link_events::{Event, SideStart, Start, System};
use second::side::Side;

const POSITION: u8 = 1;
const ENTER: Event = Event::Call(Call::Enter {
    side: Side::Partner,
    svid: 1,
    position: POSITION,
});
/// The version's bits of a header's second byte.
const VERSION: u8 = 0x78;

/// Those bits of an edition, as it is written.
fn version(edition: Edition) -> u8 {
    match edition {
        OneZero => 0x00,
        TwoZero => 0x20,
        TwoOne => 0x28,
    }
}

/// The partner's dock has two SVIDs and this highest edition; at the cable's is ours.
fn start_of(highest: Edition) -> Start {
    let partner = SideStart {
        highest,
        ..side_start(2)
    };
    Start {
        partner,
        ..start(0)
    }
}

fn after(highest: Edition, events: &[Event]) -> System {
    let mut system = System::begin(&start_of(highest));
    for event in events {
        let outcome = system.take(event);
        assert!(outcome.permitted && outcome.refusal.unwrap_or_default() == 0);
    }
    system
}

/// The header of what is under way at the partner: the request's, or else the answer's.
fn header(system: &System) -> u32 {
    let link = system.far_end(Side::Partner).link();
    let bytes = link.request().or(link.answer()).unwrap();
    u32::from_le_bytes(bytes[..4].try_into().unwrap())
}

fn editions(system: &System) -> [Edition; 2] {
    let dock = system.far_end(Side::Partner).dock();
    [system.laptop().edition(Side::Partner), dock.edition()]
}

/// The headers of a gathering, request and answer in turn, and then of an enter.
fn headers(highest: Edition) -> Vec<u32> {
    let calls = [NEXT, NEXT, NEXT, NEXT, ENTER];
    let mut events = Vec::new();
    let mut headers = Vec::new();
    for call in calls {
        events.push(call);
        headers.push(header(&after(highest, &events)));
        events.extend([REACHES, GIVE]);
        headers.push(header(&after(highest, &events)));
        events.extend([ARRIVES, SENT]);
    }
    headers
}

#[test]
fn identity_is_sent_at_ours_and_all_else_at_the_dock_s_edition() {
    let of_first = [
        0xFF00_A801,
        0xFF00_8041,
        0xFF00_8002,
        0xFF00_8042,
        0x0001_8003,
        0x0001_8043,
        0x0002_8003,
        0x0002_8043,
        0x0001_8104,
        0x0001_8144,
    ];
    assert_eq!(headers(OneZero), of_first);
    for highest in [TwoZero, TwoOne] {
        let bits = u32::from(version(highest)) << 8;
        let expected = of_first.map(|header| match header {
            0xFF00_A801 => header,
            _ => header | bits,
        });
        assert_eq!(headers(highest), expected);
    }
}

#[test]
fn a_dock_stands_at_its_highest_edition_before_the_first_request_and_the_laptop_at_ours() {
    for highest in Edition::ALL {
        let mut start = start_of(highest);
        for (page, holds_old) in [(0, false), (0, true), (3, false)] {
            (start.partner.page, start.partner.holds_old) = (page, holds_old);
            assert_eq!(editions(&System::begin(&start)), [TwoOne, highest]);
        }
    }
}

#[test]
fn after_an_identity_that_came_to_nothing_modes_are_entered_at_ours() {
    let gathered = EXCHANGE.repeat(4);
    let ends: [&[Event]; 4] = [
        &[REQUEST_LOST, TIMER],
        &[REQUEST_LOST, PROTOCOL_ERROR],
        &[REACHES, BUSY, ARRIVES],
        &[REACHES, GIVE, TIMER],
    ];
    for end in ends {
        let asked = [&gathered[..], &[NEXT], end].concat();
        assert_eq!(editions(&after(OneZero, &asked))[0], TwoOne);
        let entering = [&asked[..], &[ENTER]].concat();
        assert_eq!(header(&after(OneZero, &entering)), 0x0001_A904);
        let answered = [&entering[..], &[REACHES, GIVE]].concat();
        assert_eq!(header(&after(OneZero, &answered)), 0x0001_8144);
        let taken = [&answered[..], &[ARRIVES]].concat();
        assert_eq!(editions(&after(OneZero, &taken)), [TwoOne, OneZero]);
    }
}

#[test]
fn drop_a_late_page_and_a_late_identity_change_no_edition() {
    let [late, opened] = [[NEXT, REACHES, GIVE, TIMER], [NEXT, REACHES, GIVE, ARRIVES]];
    let dropped = [&opened[..], &[DROP]].concat();
    assert_eq!(editions(&after(TwoZero, &dropped)), [TwoZero, TwoZero]);
    let mut page = after(TwoZero, &[opened, late].concat());
    assert_eq!(page.take(&ARRIVES).refusal, Some(6));
    assert!(!page.has_candidate(Side::Partner));
    assert_eq!(editions(&page), [TwoZero, TwoZero]);
    let mut identity = after(TwoZero, &late);
    assert_eq!(identity.take(&ARRIVES).refusal, Some(6));
    assert_eq!(editions(&identity), [TwoOne, TwoZero]);
    let taken = [&late[..], &[NEXT, ARRIVES]].concat();
    assert_eq!(editions(&after(TwoZero, &taken)), [TwoZero, TwoZero]);
}

/// What the demand says if the last event leads to a message at this edition.
fn checked(events: &[Event], edition: Edition) -> Result<(), &'static str> {
    let mut system = System::begin(&start_of(TwoZero));
    let mut demand = Demand::of(&system);
    let mut last = Ok(());
    for (place, event) in events.iter().enumerate() {
        assert_eq!(last, Ok(()));
        let side = system.side_of(event);
        let outcome = system.take(event);
        let mut now = Observed::of_both(&system);
        if place + 1 == events.len() {
            let Observed {
                request, answer, ..
            } = &mut now.partner;
            let message = request.as_mut().or(answer.as_mut()).unwrap();
            message[1] = message[1] & !VERSION | version(edition);
        }
        last = demand.check(side, event, outcome, now);
    }
    last
}

#[test]
fn a_request_at_another_edition_breaks_the_demand() {
    let gathered = EXCHANGE.repeat(4);
    let in_vain = [&gathered[..], &[NEXT, TIMER, ENTER]].concat();
    let requests: [(&[Event], Edition); 5] = [
        (&[NEXT], TwoOne),
        (&[&EXCHANGE[..], &[NEXT]].concat(), TwoZero),
        (&[&EXCHANGE[..], &[START_OVER]].concat(), TwoOne),
        (&[&gathered[..], &[ENTER]].concat(), TwoZero),
        (&in_vain, TwoOne),
    ];
    for (events, due) in requests {
        for edition in Edition::ALL {
            let expected = match edition == due {
                true => Ok(()),
                false => Err(REQUEST_AT_OTHER_EDITION),
            };
            assert_eq!(checked(events, edition), expected);
        }
    }
}

#[test]
fn an_answer_at_another_edition_breaks_the_demand() {
    let page = [&EXCHANGE[..], &EXCHANGE[..3]].concat();
    let answers: [&[Event]; 3] = [&EXCHANGE[..3], &[NEXT, REACHES, BUSY], &page];
    for events in answers {
        for edition in Edition::ALL {
            let expected = match edition {
                TwoZero => Ok(()),
                _ => Err(ANSWER_AT_OTHER_EDITION),
            };
            assert_eq!(checked(events, edition), expected);
        }
    }
}
