//! The cases of 01 ("Cases on each side"), each shown in a line or more. SVIDs are 1, 2, 3 and so
//! on; every figure is what the two ends gave. The headers that are written here are at 2.0, and two
//! ends that are joined speak 2.1.

mod ends;

use crate::call::Call;
use crate::dock::PolicyAnswer;
use crate::messages;
use crate::refusals::ACCEPTED;
use crate::side::Side;
use crate::stream::print_hex;
use crate::watcher::answers::print_answer;
use crate::watcher::{Event, Run};
use ends::{answer, loaded, Ends, IDENTITY_OBJECTS, MODE};
use std::io::{self, Write};

/// The number of SVIDs in cases 1 to 8.
const LISTS: [u16; 8] = [0, 3, 4, 10, 11, 12, 13, 72];
const NEXT: Event = Event::Call(Call::Next(Side::Partner));
const SVIDS_REQUEST: u32 = 0xFF00_A002;
const IDENTITY_ACK: u32 = 0xFF00_A041;
const SVIDS_ACK: u32 = 0xFF00_A042;

pub fn print_cases(output: &mut impl Write) -> io::Result<()> {
    for (case, count) in (1..).zip(LISTS) {
        print_list(case, count, output)?;
    }
    print_reading(0xFF01_A104, output)?;
    print_bad_page(output)?;
    print_unconfirmed(output)?;
    print_voided(output)?;
    print_case_l(output)
}

/// Cases 1 to 8: the dock's answers to Discover SVIDs, up to the first on which the page stays.
fn print_list(case: usize, count: u16, output: &mut impl Write) -> io::Result<()> {
    let mut dock = loaded(count);
    for number in 1.. {
        let page = dock.page();
        let objects = answer(&mut dock, SVIDS_REQUEST, PolicyAnswer::Give);
        dock.sent().expect("an answer is being sent");
        let count = dock.svid_count();
        writeln!(
            output,
            "case {case}: n={count}, answer {number}: {}",
            shown(&objects)
        )?;
        if dock.page() == page {
            break;
        }
    }
    Ok(())
}

/// Case 9.
fn print_reading(header: u32, output: &mut impl Write) -> io::Result<()> {
    write!(output, "case 9: {header:08X}: ")?;
    match messages::read(&header.to_le_bytes()) {
        Ok(message) => writeln!(
            output,
            "SVID {:04X}, command {}, type {}, position {}",
            message.svid, message.command, message.kind, message.position
        ),
        Err(refusal) => writeln!(output, "refused {refusal}"),
    }
}

/// Case 10.
fn print_bad_page(output: &mut impl Write) -> io::Result<()> {
    let mut run = Run::default();
    for event in [NEXT, identity(), NEXT] {
        assert_eq!(run.take(&event).refusal, ACCEPTED);
    }
    let side = Side::Partner;
    let objects = vec![SVIDS_ACK, 0x0001_0000, 0x0002_0000];
    let page = shown(&objects);
    let refusal = run.take(&Event::Message { side, objects }).refusal;
    writeln!(output, "case 10: {page}: refused {refusal}")
}

/// Case 11.
fn print_unconfirmed(output: &mut impl Write) -> io::Result<()> {
    let mut ends = Ends::with(13);
    ends.exchange(PolicyAnswer::Give);
    ends.confirm();
    ends.exchange(PolicyAnswer::Give);
    ends.fail();
    ends.gather();
    writeln!(
        output,
        "case 11: n={}, first page unconfirmed once: {} pages received, {} SVIDs held",
        ends.dock.svid_count(),
        ends.run.laptop().page_count(Side::Partner),
        held(&ends.run)
    )
}

/// Case 12: the old catalogue has one SVID, and the dock is then loaded with twelve.
fn print_voided(output: &mut impl Write) -> io::Result<()> {
    let mut ends = Ends::with(1);
    ends.exchange(PolicyAnswer::Give);
    ends.confirm();
    ends.gather();
    print_catalogue("12", &ends.run, output)?;
    ends.dock = loaded(12);
    ends.exchange(PolicyAnswer::Give);
    ends.confirm();
    let (page, _) = ends.exchange(PolicyAnswer::Give);
    ends.confirm();
    let (nak, refusal) = ends.exchange(PolicyAnswer::Nak);
    ends.confirm();
    let (page, nak) = (shown(&page), shown(&nak));
    writeln!(output, "case 12: {page}, then {nak}: refused {refusal}")?;
    print_catalogue("12", &ends.run, output)
}

/// Case L: the watcher's lines, and the catalogue.
fn print_case_l(output: &mut impl Write) -> io::Result<()> {
    let message = |objects: &[u32]| Event::Message {
        side: Side::Partner,
        objects: objects.to_vec(),
    };
    let page = message(&[SVIDS_ACK, 0xFF01_0000]);
    let modes = message(&[0xFF01_A043, MODE]);
    let mut run = Run::default();
    for (number, event) in (1..).zip([NEXT, identity(), NEXT, page, NEXT, modes]) {
        write!(output, "case L: ")?;
        print_answer(number, &event, &mut run, output)?;
    }
    print_catalogue("L", &run, output)
}

fn print_catalogue(case: &str, run: &Run, output: &mut impl Write) -> io::Result<()> {
    let bytes = run.held_bytes(Side::Partner).unwrap_or_default();
    let (held, length) = (held(run), bytes.len());
    write!(
        output,
        "case {case}: held {held}, catalogue of {length} bytes "
    )?;
    print_hex(&bytes, output)?;
    writeln!(output)
}

fn identity() -> Event {
    let objects = [&[IDENTITY_ACK], &IDENTITY_OBJECTS[..]].concat();
    Event::Message {
        side: Side::Partner,
        objects,
    }
}

/// The number of held SVIDs.
fn held(run: &Run) -> String {
    let held = run.laptop().held(Side::Partner);
    held.map_or("-".to_string(), |held| held.svids.len().to_string())
}

fn shown(objects: &[u32]) -> String {
    let words: Vec<String> = objects
        .iter()
        .map(|object| format!("{object:08X}"))
        .collect();
    words.join(" ")
}
