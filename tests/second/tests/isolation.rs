//! Isolation (02, R-4): events of one side change nothing of the other, in drawn histories.

use second::call::Call;
use second::catalogue::Catalogue;
use second::edition::Edition;
use second::laptop::{Candidate, Told};
use second::laptop_events::generator::{generate, stored_stream};
use second::laptop_events::{Event, Outcome, Run};
use second::lent_runs::LentRuns;
use second::messages::Request;
use second::random::Random;
use second::refusals::{ACCEPTED, AWAITING};
use second::side::Side;

const SVIDS: [u16; 3] = [1, 2, 0xFF00];
const HISTORIES: u64 = 3000;
/// The bits of major and minor in a header's second byte, and those that differ among versions that
/// are read.
const VERSION: u8 = 0x78;
const READ_VERSIONS: u8 = 0x38;

/// All that there is of one side.
#[derive(Debug, PartialEq)]
struct OfSide {
    awaited: Option<Request>,
    candidate: Candidate,
    held: Option<Catalogue>,
    page_count: usize,
    edition: Edition,
    entered: Vec<u32>,
    runs: LentRuns,
}

impl OfSide {
    fn of(run: &Run, side: Side) -> Self {
        let laptop = run.laptop();
        let held = laptop.held(side);
        let svids = held.map(|held| held.svids.clone()).unwrap_or_default();
        let entered = svids.iter().map(|&svid| laptop.entered_count(side, svid));
        OfSide {
            awaited: laptop.awaited_from(side),
            candidate: laptop.candidate(side).clone(),
            held: held.cloned(),
            page_count: laptop.page_count(side),
            edition: laptop.edition(side),
            entered: entered.collect(),
            runs: run.runs(side).clone(),
        }
    }
}

/// An event of a history, what it led to, and whose it was; that of a timer is the side that waited.
struct Past {
    event: Event,
    side: Option<Side>,
    /// Whether it was refused 7 because the other side waited.
    refused_for_other: bool,
    outcome: Outcome,
}

/// What the events came to, each with the state of one side after it.
fn take(events: &[Event], observed: Side) -> Vec<(Past, OfSide)> {
    let mut run = Run::default();
    let past = events.iter().map(|event| {
        let waiting = run.laptop().awaited().map(|awaited| awaited.side);
        let side = event.side().or(waiting);
        let outcome = run.take(event);
        let other_waited = side.is_some_and(|side| waiting == Some(side.other()));
        let past = Past {
            event: event.clone(),
            side,
            refused_for_other: other_waited && outcome.refusal == AWAITING,
            outcome,
        };
        (past, OfSide::of(&run, observed))
    });
    past.collect()
}

/// Without the other side's events, and without the own calls that are left out, all answers and states
/// of the side are the same.
fn assert_isolated(events: &[Event], side: Side, is_left_out: fn(&Past) -> bool) {
    let whole = take(events, side);
    let own = whole.iter().filter(|(past, _)| {
        let is_own = past.side.is_none_or(|of| of == side);
        is_own && !is_left_out(past)
    });
    let own: Vec<&(Past, OfSide)> = own.collect();
    let events: Vec<Event> = own.iter().map(|(past, _)| past.event.clone()).collect();
    let alone = take(&events, side);
    for ((past, state), (past_alone, state_alone)) in own.into_iter().zip(&alone) {
        assert_eq!(past.outcome, past_alone.outcome, "{:?}", past.event);
        assert_eq!(state, state_alone, "{:?}", past.event);
    }
}

/// An owner's call that was refused, for whatever reason.
fn is_refused_call(past: &Past) -> bool {
    let is_owners = matches!(&past.event, Event::Call(call) if call.is_owners());
    is_owners && past.outcome.refusal != ACCEPTED
}

/// 02's own form: up to the first own call that is refused 7 because the other side waits, the other
/// side's events alone are left out.
fn assert_isolated_while_none_is_refused(events: &[Event], side: Side) {
    let whole = take(events, side);
    let is_refused = |(past, _): &(Past, OfSide)| past.refused_for_other && past.side == Some(side);
    let length = whole.iter().position(is_refused).unwrap_or(whole.len());
    let before = &whole[..length];
    let own = before
        .iter()
        .filter(|(past, _)| past.side != Some(side.other()));
    let events: Vec<Event> = own.map(|(past, _)| past.event.clone()).collect();
    let alone = take(&events, side);
    let last = before.last().map(|(_, state)| state);
    let last_alone = alone.last().map(|(_, state)| state);
    if let (Some(state), Some(state_alone)) = (last, last_alone) {
        assert_eq!(state, state_alone);
    }
    let answers = before.iter().filter(|(past, _)| past.side == Some(side));
    let answers_alone = alone.iter().filter(|(past, _)| past.side == Some(side));
    assert!(answers
        .map(|(past, _)| &past.outcome)
        .eq(answers_alone.map(|(past, _)| &past.outcome)));
}

/// A few dozen events of few sorts, so that most interleavings are met: what is awaited is mostly
/// answered, now and then by the wrong side.
fn drawn_history(seed: u64) -> Vec<Event> {
    let mut random = Random::from_small_seed(seed);
    let mut run = Run::default();
    let mut events = Vec::new();
    for _ in 0..20 + random.below(60) {
        let side = random.one_of(&Side::BOTH);
        let event = match random.below(10) {
            0..4 => drawn_answer(&mut random, &run),
            4..7 => Event::Call(Call::Next(side)),
            7 => drawn_message(&mut random, side),
            8 => Event::Call(drawn_mode(&mut random, side)),
            _ => Event::Call(drawn_call(&mut random, side)),
        };
        let event = in_drawn_version(&mut random, event);
        run.take(&event);
        events.push(event);
    }
    events
}

/// The event, a message in a version that is read.
fn in_drawn_version(random: &mut Random, mut event: Event) -> Event {
    if let Event::Message { bytes, .. } = &mut event {
        bytes[1] = bytes[1] & !VERSION | random.byte() & READ_VERSIONS;
    }
    event
}

fn of_objects(side: Side, objects: &[u32]) -> Event {
    let words = objects.iter().flat_map(|word| word.to_le_bytes());
    let bytes = words.collect();
    Event::Message { side, bytes }
}

/// The answer to what is awaited, seldom from the other side, or a page if nothing is.
fn drawn_answer(random: &mut Random, run: &Run) -> Event {
    let Some(awaited) = run.laptop().awaited() else {
        let side = random.one_of(&Side::BOTH);
        return drawn_message(random, side);
    };
    let side = match random.is_rare() {
        true => awaited.side.other(),
        false => awaited.side,
    };
    let Request {
        svid,
        command,
        position,
    } = awaited.request;
    let kind = random.one_of(&[0x40, 0x40, 0x40, 0x80, 0xC0]);
    let header = u32::from(svid) << 16 | 0xA000 | u32::from(position) << 8;
    let header = header | kind | u32::from(command);
    match (command, kind) {
        (1, 0x40) => of_objects(side, &[header, 1, 2, random.word()]),
        (2, 0x40) => drawn_page(random, side),
        (3, 0x40) => of_objects(side, &[header, random.word()]),
        _ => of_objects(side, &[header]),
    }
}

/// A full page, most often the first, or one that ends the list.
fn drawn_page(random: &mut Random, side: Side) -> Event {
    let first = random.one_of(&[1_u32, 1, 13]);
    let full = (0..6).map(|place| (first + 2 * place) << 16 | (first + 2 * place + 1));
    let objects: Vec<u32> = match random.below(2) {
        0 => [0xFF00_A042].into_iter().chain(full).collect(),
        _ => vec![
            0xFF00_A042,
            random.one_of(&[0x0001_0000, 0x0001_0002, 0x000D_0000]),
        ],
    };
    of_objects(side, &objects)
}

fn drawn_message(random: &mut Random, side: Side) -> Event {
    match random.below(4) {
        0 => of_objects(side, &[0x0001_A106, 7]),
        1 => of_objects(
            side,
            &[random.one_of(&[0xFF00_A082, 0xFF00_A0C1, 0x0001_A144])],
        ),
        2 => of_objects(side, &[0xFF00_A041, 1, 2, 3]),
        _ => drawn_page(random, side),
    }
}

fn drawn_mode(random: &mut Random, side: Side) -> Call {
    let svid = random.one_of(&SVIDS);
    let position = random.one_of(&[1, 1, 2, 7]);
    let enter = Call::Enter {
        side,
        svid,
        position,
    };
    let exit = Call::Exit {
        side,
        svid,
        position,
    };
    random.one_of(&[enter, exit])
}

fn drawn_call(random: &mut Random, side: Side) -> Call {
    random.one_of(&[
        Call::StartOver(side),
        Call::Drop(side),
        Call::ResponseTimer,
        Call::ResponseTimer,
        Call::EntryTimer,
        Call::ExitTimer,
        Call::ProtocolError,
    ])
}

fn histories() -> impl Iterator<Item = Vec<Event>> {
    let drawn = (0..HISTORIES).map(drawn_history);
    drawn.chain((2..300).map(stored_stream))
}

#[test]
fn events_of_one_side_change_nothing_of_the_other() {
    for events in histories() {
        for side in Side::BOTH {
            assert_isolated(&events, side, |past| past.refused_for_other);
            assert_isolated(&events, side, is_refused_call);
        }
    }
}

#[test]
fn while_no_own_call_is_refused_7_the_other_sides_events_alone_can_be_left_out() {
    for events in histories() {
        for side in Side::BOTH {
            assert_isolated_while_none_is_refused(&events, side);
        }
    }
}

#[test]
fn a_long_history_is_isolated_too() {
    let events = generate(3);
    for side in Side::BOTH {
        assert_isolated(&events[..6000], side, |past| past.refused_for_other);
    }
}

/// Kept in, a call refused 7 because the other side waits would be accepted alone.
#[test]
fn a_call_refused_7_for_the_other_side_must_be_left_out() {
    let (partner, cable) = (Side::Partner, Side::Cable);
    let calls = [Call::Next(cable), Call::Next(partner)].map(Event::Call);
    let refusals = |events: &[Event]| -> Vec<u8> {
        let past = take(events, partner);
        past.iter().map(|(past, _)| past.outcome.refusal).collect()
    };
    assert_eq!(refusals(&calls), [0, 7]);
    assert_eq!(refusals(&calls[1..]), [0]);
}

/// The histories hold what isolation is about: drops by late pages, answers for the other side, and
/// calls refused for it, of both sides.
#[test]
fn the_histories_meet_what_isolation_is_about() {
    for side in Side::BOTH {
        let mut met = [0; 3];
        for events in histories() {
            let whole = take(&events, side);
            for pair in whole.windows(2) {
                let (before, (past, after)) = (&pair[0].1, &pair[1]);
                let is_own = past.side == Some(side);
                let was_open = matches!(before.candidate, Candidate::ListOpen(_));
                let is_dropped = was_open && after.candidate == Candidate::None;
                met[0] += usize::from(is_own && past.refused_for_other);
                met[1] += usize::from(is_own && past.outcome.refusal == 6);
                met[2] += usize::from(is_own && past.outcome.refusal == 6 && is_dropped);
            }
        }
        assert!(met.iter().all(|&count| count > 100), "{met:?}");
    }
}

/// The sides are alike: with every side the other, the answers are the same of the other side.
#[test]
fn with_every_side_the_other_the_answers_are_those_of_the_other() {
    for events in histories() {
        let swapped: Vec<Event> = events.iter().map(swap_event).collect();
        let there = take(&events, Side::Partner);
        let back = take(&swapped, Side::Cable);
        for ((past, state), (past_back, state_back)) in there.iter().zip(&back) {
            let told = past.outcome.told.map(swap_told);
            assert_eq!(past_back.outcome.told, told);
            assert_eq!(past_back.outcome.refusal, past.outcome.refusal);
            assert_eq!(past_back.outcome.sent, past.outcome.sent);
            assert_eq!(past_back.outcome.catalogue, past.outcome.catalogue);
            assert_eq!(state_back, state);
        }
    }
}

fn swap_event(event: &Event) -> Event {
    let mut event = event.clone();
    match &mut event {
        Event::Message { side, .. }
        | Event::Report { side, .. }
        | Event::WriteCatalogue { side, .. }
        | Event::Lengths { side, .. } => *side = side.other(),
        Event::Call(call) => *call = call.for_other_side(),
    }
    event
}

fn swap_told(mut told: Told) -> Told {
    match &mut told {
        Told::Attention { side, .. } | Told::Unmarked { side, .. } => *side = side.other(),
    }
    told
}
