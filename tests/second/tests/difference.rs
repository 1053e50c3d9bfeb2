//! The first line in which two outputs differ, held against lines written by hand.

use second::difference::first_difference;

const LINES: &str = "stream event refusal\n1 1 0\n1 2 0\n2 1 7\nend 3 events\n";

fn difference(theirs: &str) -> Option<String> {
    first_difference(("second", LINES), ("stored", theirs))
}

#[test]
fn the_same_lines_do_not_differ() {
    assert_eq!(difference(LINES), None);
    assert_eq!(first_difference(("second", ""), ("stored", "")), None);
}

#[test]
fn a_difference_names_its_stream_its_event_and_both_lines() {
    let told = "stream 2, event 1, line 4\n    second: 2 1 7\n    stored: 2 1 6";
    assert_eq!(
        difference(&LINES.replace("2 1 7", "2 1 6")).as_deref(),
        Some(told)
    );
}

#[test]
fn a_line_of_no_event_has_its_number_alone() {
    let told = "line 5\n    second: end 3 events\n    stored: cut after 3 events";
    assert_eq!(
        difference(&LINES.replace("end", "cut after")).as_deref(),
        Some(told)
    );
}

#[test]
fn a_missing_line_is_a_difference() {
    let shorter = &LINES[..LINES.len() - "2 1 7\nend 3 events\n".len()];
    let told = "stream 2, event 1, line 4\n    second: 2 1 7\n    stored: (no line)";
    assert_eq!(difference(shorter).as_deref(), Some(told));
    let longer = [LINES, "more\n"].concat();
    let told = "line 6\n    second: (no line)\n    stored: more";
    assert_eq!(difference(&longer).as_deref(), Some(told));
    let cut = &LINES[..LINES.len() - 1];
    let told = "line 5\n    second: end 3 events\n    stored: end 3 events";
    assert_eq!(difference(cut).as_deref(), Some(told));
}

#[test]
fn other_headings_name_what_they_count() {
    let vectors = first_difference(("a", "vector answer\n3 read 1\n"), ("b", "vector answer\n"));
    assert_eq!(
        vectors.as_deref(),
        Some("vector 3, line 2\n    a: 3 read 1\n    b: (no line)")
    );
    let files = first_difference(("a", "file answer\n7 record 15\n"), ("b", "file answer\n"));
    assert_eq!(
        files.as_deref(),
        Some("file 7, line 2\n    a: 7 record 15\n    b: (no line)")
    );
    let cases = first_difference(("a", "case 1: yes\n"), ("b", "case 1: no\n"));
    assert_eq!(
        cases.as_deref(),
        Some("line 1\n    a: case 1: yes\n    b: case 1: no")
    );
}
