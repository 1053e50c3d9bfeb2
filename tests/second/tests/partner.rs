//! The partner's link events by name, for the tests of the links, and what is the same of the cable.

use second::call::Call;
use second::edition::Edition;
use second::link_events::{Data, Event, LinkEvent, SideStart, Start};
use second::side::Side;

pub const NEXT: Event = Event::Call(Call::Next(Side::Partner));
pub const START_OVER: Event = Event::Call(Call::StartOver(Side::Partner));
pub const DROP: Event = Event::Call(Call::Drop(Side::Partner));
pub const REACHES: Event = Event::On(Side::Partner, LinkEvent::RequestReaches);
pub const REQUEST_LOST: Event = Event::On(Side::Partner, LinkEvent::RequestLost);
pub const GIVE: Event = Event::On(Side::Partner, LinkEvent::Give);
pub const BUSY: Event = Event::On(Side::Partner, LinkEvent::Busy);
pub const ARRIVES: Event = Event::On(Side::Partner, LinkEvent::AnswerArrives);
pub const ANSWER_LOST: Event = Event::On(Side::Partner, LinkEvent::AnswerLost);
pub const SENT: Event = Event::On(Side::Partner, LinkEvent::Sent);
pub const FAILED: Event = Event::On(Side::Partner, LinkEvent::Failed);
/// Not of the partner alone: of the side that waits.
pub const TIMER: Event = Event::Timer;
pub const PROTOCOL_ERROR: Event = Event::Call(Call::ProtocolError);

/// A request and its answer, which is taken and confirmed.
pub const EXCHANGE: [Event; 5] = [NEXT, REACHES, GIVE, ARRIVES, SENT];

/// The same event of the other side.
pub fn twin(event: Event) -> Event {
    match event {
        Event::Call(call) => Event::Call(call_of_other(call)),
        Event::Timer => Event::Timer,
        Event::On(side, event) => Event::On(side.other(), event),
    }
}

/// A protocol error is of neither side.
fn call_of_other(mut call: Call) -> Call {
    match &mut call {
        Call::Next(side) | Call::StartOver(side) | Call::Drop(side) => *side = side.other(),
        Call::Enter { side, .. } | Call::Exit { side, .. } => *side = side.other(),
        _ => {}
    }
    call
}

pub fn twins(events: &[Event]) -> Vec<Event> {
    events.iter().copied().map(twin).collect()
}

/// SVIDs 1 to `count`, each with its own mode, of a dock of our edition.
pub fn side_start(count: u16) -> SideStart {
    SideStart {
        data: Data {
            identity: vec![7, 8, 9],
            svids: (1..=count).collect(),
            modes: (1..=u32::from(count)).map(|svid| vec![svid]).collect(),
        },
        page: 0,
        holds_old: false,
        highest: Edition::TwoOne,
    }
}

/// The partner lists so many SVIDs, and the cable two.
pub fn start(count: u16) -> Start {
    Start {
        partner: side_start(count),
        cable: side_start(2),
    }
}
