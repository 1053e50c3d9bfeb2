//! The counts of what lines reach, held against lines written by hand.

use second::reached::{are_lines, beside_refusals, refusals, Reached};

const LAPTOP: &str = "stream event side refusal sent output told awaited candidate pages held \
    candidate_run held_run catalogue report other_candidate other_pages other_held\n\
    1 1 partner 0 01A000FF EE763419 - partner:FF00:1:0 none 0 - 5F29F345 5F29F345 - - none 0 -\n\
    1 2 partner 0 - - - - open:0 0 - 5F29F345 5F29F345 - - none 0 -\n\
    1 3 partner 11 - - - - open:0 199 - 5F29F345 5F29F345 - - none 0 -\n\
    1 4 cable 0 - - - cable:FF01:3:0 done:2:1 200 0 5F29F345 5F29F345 - - open:0 199 -\n\
    2 1 cable 0 04A301FF 5CCE87A6 - cable:FF01:4:3 none 1 72 0FDC1314 0FDC1314 - - none 0 -\n\
    2 2 partner 7 - - - cable:FF01:4:3 none 0 - 5F29F345 5F29F345 - - none 1 72\n\
    2 3 partner 0 05A701FF 5CCE87A6 - partner:FF01:5:7 none 1 72 0FDC1314 0FDC1314 - - none 0 -\n\
    unknown kind after 7 events\n";
const WATCHER: &str = "event refusal sent pages held\n\
    1 13 - 200 5\n\
    2 0 FF01A104 1 5\n\
    unknown kind after 2 events\n";
const DOCK: &str = "event refusal length buffer standing page count\n\
    1 10 0 5A5A ready 0 0\n\
    end 1 events\n";
const LINK: &str = "stream event side permitted refusal pages candidate held catalogue page lost \
    other_pages other_candidate other_held\n\
    1 1 partner permitted 9 0 none - - 0 0 0 none -\n\
    1 2 cable - - 0 none 1 E3C0FFF3 0 0 0 none -\n\
    end 2 events\n";

fn reached(texts: &[&str]) -> Reached {
    let mut reached = Reached::default();
    for text in texts {
        reached.count_lines(text);
    }
    reached
}

#[test]
fn nothing_counted_is_everything_missing() {
    let nothing = reached(&[]);
    assert_eq!(nothing.missing(&refusals()).len(), 13);
    let states_lists_pages_positions = 2 * (8 + 3) + 73 + 2 + 2 * 13;
    assert_eq!(
        nothing.missing(&beside_refusals()).len(),
        states_lists_pages_positions
    );
    assert_eq!(nothing.missing(&refusals())[8], "refusal 10 never occurred");
    assert_eq!(nothing.withdrawn(), None);
}

#[test]
fn each_event_has_one_line_and_the_last_line_is_none() {
    let counts = [LAPTOP, WATCHER, DOCK, LINK, "", "event refusal\n"];
    let counts = counts.map(|text| Reached::default().count_lines(text));
    assert_eq!(counts, [7, 2, 1, 2, 0, 0]);
}

#[test]
fn laptop_lines_tell_refusals_states_lists_pages_and_positions() {
    let counted = reached(&[LAPTOP]);
    let expected = [
        ("refusal 11", 1),
        ("refusal 7", 1),
        ("refusal 13", 0),
        ("candidate none of the partner awaiting command 1", 1),
        ("candidate open of the partner awaiting nothing", 2),
        ("candidate done of the cable awaiting command 3", 1),
        ("candidate none of the cable awaiting command 4", 1),
        ("candidate none of the partner awaiting command 4", 0),
        (
            "candidate none of the partner while the other side waits",
            1,
        ),
        ("candidate none of the cable while the other side waits", 0),
        ("candidate none of the partner awaiting nothing", 0),
        ("held list of 0", 1),
        ("held list of 72", 2),
        ("page count 199", 1),
        ("page count 200", 1),
        ("enter sent to the cable at position 3", 1),
        ("enter sent to the partner at position 3", 0),
        ("exit sent to the partner at position 7", 1),
        ("exit sent to the partner at position 3", 0),
    ];
    for (name, count) in expected {
        assert_eq!(counted.count_of(name), count, "{name}");
        let looked_for = refusals().contains(&name.to_string());
        assert!(looked_for || beside_refusals().contains(&name.to_string()));
    }
}

#[test]
fn lines_of_all_programs_add_up() {
    let counted = reached(&[WATCHER, DOCK, LINK, WATCHER]);
    let names = ["refusal 13", "refusal 10", "refusal 9", "page count 200"];
    assert_eq!(names.map(|name| counted.count_of(name)), [2, 1, 1, 2]);
    assert_eq!(counted.count_of("held list of 5"), 4);
    assert_eq!(counted.missing(&refusals()).len(), 13 - 3);
    assert!(counted
        .to_string()
        .starts_with("refusal 1: 0\nrefusal 2: 0\n"));
}

#[test]
fn a_refusal_that_is_withdrawn_is_told() {
    let counted = reached(&["event refusal sent pages held\n1 4 - 0 -\nend 1 events\n"]);
    let told = "refusal 4 occurred, and it is withdrawn".to_string();
    assert_eq!(counted.withdrawn(), Some(told));
    assert!(!refusals().contains(&"refusal 4".to_string()));
}

#[test]
fn lines_begin_with_a_heading_and_a_stream_does_not() {
    for text in [LAPTOP, WATCHER, DOCK, LINK] {
        assert!(are_lines(text.as_bytes()));
    }
    for stream in [&[][..], &[0x40], &[0x01, 0], b"even"] {
        assert!(!are_lines(stream));
    }
}
