//! The cases of document 01, held against the numbers that it gives and lines worked out by hand.

use second::cases::print_cases;

/// Case L's catalogue and that of one SVID, 1, by the same identity and mode.
const CASE_L: &str = "held 1, catalogue of 22 bytes 030100000002000000030000001001FF200504000000";
const OLD: &str = "held 1, catalogue of 22 bytes 03010000000200000003000000100100200504000000";
const FULL_PAGE: &str = "FF00A042 00010002 00030004 00050006 00070008 0009000A 000B000C";

fn printed() -> String {
    let mut output = Vec::new();
    print_cases(&mut output).unwrap();
    String::from_utf8(output).unwrap()
}

/// What is printed of a case.
fn case(name: &str) -> Vec<String> {
    let start = format!("case {name}: ");
    let output = printed();
    let lines = output.lines().filter_map(|line| line.strip_prefix(&start));
    lines.map(str::to_string).collect()
}

#[test]
fn cases_1_to_5_have_one_answer() {
    let answers = [
        "n=0, answer 1: FF00A082",
        "n=3, answer 1: FF00A042 00010002 00030000",
        "n=4, answer 1: FF00A042 00010002 00030004 00000000",
        "n=10, answer 1: FF00A042 00010002 00030004 00050006 00070008 0009000A 00000000",
        "n=11, answer 1: FF00A042 00010002 00030004 00050006 00070008 0009000A 000B0000",
    ];
    for (number, answer) in (1..).zip(answers) {
        assert_eq!(case(&number.to_string()), [answer]);
    }
}

#[test]
fn cases_6_and_7_have_a_full_page_first() {
    for (name, count, last) in [("6", 12, "00000000"), ("7", 13, "000D0000")] {
        let full = format!("n={count}, answer 1: {FULL_PAGE}");
        let last = format!("n={count}, answer 2: FF00A042 {last}");
        assert_eq!(case(name), [full, last]);
    }
}

#[test]
fn case_8_has_seven_pages() {
    let lines = case("8");
    assert_eq!(lines.len(), 7);
    let sixth = "n=72, answer 6: FF00A042 003D003E 003F0040 00410042 00430044 00450046 00470048";
    assert_eq!(lines[5], sixth);
    assert_eq!(lines[6], "n=72, answer 7: FF00A042 00000000");
}

#[test]
fn case_9_is_an_enter_req() {
    let reading = "FF01A104: SVID FF01, command 4, type 0, position 1";
    assert_eq!(case("9"), [reading]);
}

#[test]
fn case_10_is_refused_8() {
    assert_eq!(case("10"), ["FF00A042 00010000 00020000: refused 8"]);
}

#[test]
fn case_11_receives_three_pages() {
    let line = "n=13, first page unconfirmed once: 3 pages received, 13 SVIDs held";
    assert_eq!(case("11"), [line]);
}

/// Between our two ends all is at 2.1.
#[test]
fn case_12_is_refused_8_and_leaves_the_old_catalogue() {
    let page = FULL_PAGE.replace("FF00A042", "FF00A842");
    let refused = format!("{page}, then FF00A882: refused 8");
    assert_eq!(case("12"), [OLD, &refused, OLD]);
}

#[test]
fn case_l_is_the_watchers_lines_and_22_bytes() {
    let lines = [
        "1 0 FF00A801 0 -",
        "2 0 - 0 -",
        "3 0 FF00A002 0 -",
        "4 0 - 1 -",
        "5 0 FF01A003 1 -",
        "6 0 - 1 1",
        CASE_L,
    ];
    assert_eq!(case("L"), lines);
}

#[test]
fn nothing_else_is_printed() {
    let names = [
        "1", "2", "3", "4", "5", "6", "7", "8", "9", "10", "11", "12", "L",
    ];
    let lines: usize = names.iter().map(|name| case(name).len()).sum();
    assert_eq!(printed().lines().count(), lines);
}
