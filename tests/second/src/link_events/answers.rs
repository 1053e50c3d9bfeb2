//! Answers a stream of link events, a line each, as long as demand 3 holds.

use super::checks::{Demand, Observed};
use super::{Event, Item, Outcome, Start, System};
use crate::fields::{self, or_nothing, NOTHING};
use crate::side::Side;
use crate::stream::{print_lines, Place, Stop};
use std::io::{self, BufRead, Write};

const HEADING: &str = "stream event side permitted refusal \
    pages candidate held catalogue page lost edition dock_edition \
    other_pages other_candidate other_held other_edition";

/// A stream under its events so far.
struct Course {
    place: Place,
    system: System,
    demand: Demand,
}

/// Fails with what breaks the demand, which is also the last line.
pub fn print_answers(input: &mut impl BufRead, output: &mut impl Write) -> io::Result<()> {
    writeln!(output, "{HEADING}")?;
    let mut course = None;
    print_lines("events", input, output, |_, input, output| {
        let course = match &mut course {
            Some(course) => course,
            none => none.insert(Course::begin(Place::FIRST, input)?),
        };
        let event = course.take_event(input)?;
        let side = course.system.side_of(&event);
        let outcome = course.system.take(&event);
        print_answer(course, side, outcome, output)?;
        let observed = Observed::of_both(&course.system);
        let check = course.demand.check(side, &event, outcome, observed);
        Ok(check.or_else(|broken| report_broken(course.place, broken, output))?)
    })
}

impl Course {
    fn begin(place: Place, input: &mut impl BufRead) -> Result<Self, Stop> {
        let system = System::begin(&Start::take(input)?);
        Ok(Course {
            place,
            demand: Demand::of(&system),
            system,
        })
    }

    /// The next event, which may be that of a new stream.
    fn take_event(&mut self, input: &mut impl BufRead) -> Result<Event, Stop> {
        loop {
            match Item::take(input)? {
                Item::NewStream => {
                    *self = Course::begin(self.place.next_stream()?, input)?;
                }
                Item::Event(event) => {
                    self.place = self.place.next_event();
                    return Ok(event);
                }
            }
        }
    }
}

fn print_answer(
    course: &Course,
    side: Side,
    outcome: Outcome,
    output: &mut impl Write,
) -> io::Result<()> {
    let permitted = if outcome.permitted {
        "permitted"
    } else {
        NOTHING
    };
    let Course { place, system, .. } = course;
    let refusal = or_nothing(outcome.refusal.map(|refusal| refusal.to_string()));
    write!(output, "{place} {side} {permitted} {refusal} ")?;
    print_gathering(system, side, output)?;
    let catalogue = or_nothing(system.held_bytes(side).as_deref().map(fields::digest_of));
    let far_end = system.far_end(side);
    let (page, lost) = (far_end.dock().page(), far_end.confirmations_lost());
    write!(output, " {catalogue} {page} {lost} ")?;
    let [edition, other_edition] = [side, side.other()].map(|side| system.laptop().edition(side));
    write!(output, "{edition} {} ", far_end.dock().edition())?;
    print_gathering(system, side.other(), output)?;
    writeln!(output, " {other_edition}")
}

/// The page count, the candidate and the number of held SVIDs of a side.
fn print_gathering(system: &System, side: Side, output: &mut impl Write) -> io::Result<()> {
    let laptop = system.laptop();
    let pages = laptop.page_count(side);
    let candidate = fields::candidate(laptop.candidate(side));
    let held = fields::held_count(laptop, side);
    write!(output, "{pages} {candidate} {held}")
}

fn report_broken(place: Place, broken: &str, output: &mut impl Write) -> io::Result<()> {
    let Place { stream, event } = place;
    writeln!(
        output,
        "demand 3 is broken in stream {stream} at event {event}: {broken}"
    )?;
    Err(io::Error::other(broken))
}
