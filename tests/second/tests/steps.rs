//! Steps of `tests/c/steps`, held against lines worked out by hand.

use second::steps::print_lines;

fn printed(steps: &str) -> Vec<String> {
    let mut output = Vec::new();
    print_lines(&mut steps.as_bytes(), &mut output).unwrap();
    let output = String::from_utf8(output).unwrap();
    output.lines().map(str::to_string).collect()
}

#[test]
fn an_accepted_call_of_the_dock_shows_what_it_sends() {
    let steps = "dock_load 00000001 00000002 00000003 / 0001\ndock_message FF00A002\ndock_policy_answer 0 FF00 2 0\ndock_sent\n";
    let lines = [
        "dock_load 00000001 00000002 00000003 / 0001: accepted, length 0, sends nothing, state 3 1 0 ready 21",
        "dock_message FF00A002: accepted, length 0, sends nothing, state 3 1 0 asking FF00 2 0 20",
        "dock_policy_answer 0 FF00 2 0: accepted, length 8, sends FF00A042 00010000, state 3 1 0 sending 20",
        "dock_sent: accepted, length 0, sends nothing, state 3 1 0 ready 20",
    ];
    assert_eq!(printed(steps), lines);
}

#[test]
fn the_dock_answers_at_the_edition_of_its_newest_good_request() {
    let answers = [
        ("dock_message FF008001", "asking FF00 1 0 10"),
        ("dock_message FF00A801", "asking FF00 1 0 21"),
        ("dock_message FF00C001", "asking FF00 1 0 21"),
        ("dock_message FF009802", "asking FF00 2 0 10"),
        ("dock_message FF00B802", "asking FF00 2 0 21"),
        ("dock_message FF01A11F", "sending 20"),
        ("dock_message FF01911F", "sending 10"),
    ];
    let steps = answers.map(|(step, _)| format!("{step}\n")).concat();
    let lines = printed(&steps);
    for ((_, state), line) in answers.iter().zip(&lines) {
        assert!(line.ends_with(&format!(", state 0 0 0 {state}")), "{line}");
    }
    assert!(lines[2].contains(": refused 3, changed nothing,"));
    assert!(lines[5].contains(", sends FF01A19F,") && lines[6].contains(", sends FF01819F,"));
}

#[test]
fn a_refusal_shows_what_it_changed() {
    let identity = "laptop_message 0 FF00A041 00000001 00000002 00000003";
    let page = "laptop_message 0 FF00A042 00010000";
    let steps = format!("laptop_next 0\nlaptop_drop 0\n{identity}\n{page}\n");
    let cable = "cable 0 - - - 0 0 - - 21";
    let lines = [
        format!("laptop_next 0: accepted, handed 4 0 0000 0 0 0 00000000 0, sends FF00A801, awaited 1 FF00 1 0, partner 0 - - - 0 0 - - 21, {cable}"),
        format!("laptop_drop 0: refused 7, changed nothing, awaited 1 FF00 1 0, partner 0 - - - 0 0 - - 21, {cable}"),
        format!("{identity}: accepted, handed 0 0 0000 0 0 0 00000000 0, sends nothing, awaited 0 - - -, partner 1 3 0 0 0 0 - - 20, {cable}"),
        format!("{page}: refused 6, changed state, awaited 0 - - -, partner 0 - - - 0 0 - - 20, {cable}"),
    ];
    assert_eq!(printed(&steps), lines);
}

#[test]
fn a_call_of_the_cable_shows_both_sides() {
    let identity = "laptop_message 1 FF00A041 00000001 00000002 00000003";
    let page = "laptop_message 1 FF00A042 00010000";
    let steps = format!("laptop_next 1\nlaptop_drop 0\n{identity}\nlaptop_next 0\n{page}\n");
    let partner = "partner 0 - - - 0 0 - - 21";
    let lines = [
        format!("laptop_next 1: accepted, handed 4 0 0000 0 0 0 00000000 1, sends FF00A801, awaited 2 FF00 1 0, {partner}, cable 0 - - - 0 0 - - 21"),
        format!("laptop_drop 0: refused 7, changed nothing, awaited 2 FF00 1 0, {partner}, cable 0 - - - 0 0 - - 21"),
        format!("{identity}: accepted, handed 0 0 0000 0 0 0 00000000 1, sends nothing, awaited 0 - - -, {partner}, cable 1 3 0 0 0 0 - - 20"),
        format!("laptop_next 0: accepted, handed 4 0 0000 0 0 0 00000000 0, sends FF00A801, awaited 1 FF00 1 0, {partner}, cable 1 3 0 0 0 0 - - 20"),
        format!("{page}: refused 6, changed state, awaited 1 FF00 1 0, {partner}, cable 0 - - - 0 0 - - 20"),
    ];
    assert_eq!(printed(&steps), lines);
}

#[test]
fn a_timer_hands_over_the_side_that_waited() {
    let fresh = "partner 0 - - - 0 0 - - 21, cable 0 - - - 0 0 - - 21";
    for side in [0, 1] {
        let steps = format!("laptop_next {side}\nlaptop_response_timer\nlaptop_response_timer\n");
        let lines = [
            format!("laptop_next {side}: accepted, handed 4 0 0000 0 0 0 00000000 {side}, sends FF00A801, awaited {} FF00 1 0, {fresh}", side + 1),
            format!("laptop_response_timer: accepted, handed 0 0 0000 0 0 0 00000000 {side}, sends nothing, awaited 0 - - -, {fresh}"),
            format!("laptop_response_timer: refused 9, changed nothing, awaited 0 - - -, {fresh}"),
        ];
        assert_eq!(printed(&steps), lines);
    }
}

/// The steps of a side by which it comes to hold the mode 00000405 of FF01.
fn holding(side: u8) -> String {
    [
        "FF00A041 00000001 00000002 00000003",
        "FF00A042 FF010000",
        "FF01A043 00000405",
    ]
    .map(|words| format!("laptop_next {side}\nlaptop_message {side} {words}\n"))
    .concat()
}

#[test]
fn a_catalogue_is_published_and_written_of_its_own_side() {
    let steps = holding(1) + "catalogue_write 0 2402\ncatalogue_write 1 2402\n";
    let lines = [
        "laptop_message 1 FF01A043 00000405: accepted, handed 0 0 0000 0 0 0 00000000 1, sends nothing, cable_run 0 is 00000405, cable_held_run 0 is 00000405, awaited 0 - - -, partner 0 - - - 0 0 - - 21, cable 0 - - - 1 1 3 1 20",
        "catalogue_write 0 2402: refused 12, changed nothing",
        "catalogue_write 1 2402: accepted, length 22, bytes 030100000002000000030000001001FF200504000000",
    ];
    assert_eq!(printed(&steps)[5..], lines);
}

#[test]
fn an_enter_that_comes_to_nothing_is_told_of_its_side() {
    let state = "awaited 0 - - -, partner 0 - - - 0 0 - - 21, cable 0 - - - 1 1 3 1 20";
    for (end, told) in [
        ("laptop_message 1 FF01A184", 2),
        ("laptop_message 1 FF01A1C4", 3),
        ("laptop_entry_timer", 4),
        ("laptop_protocol_error", 5),
    ] {
        let steps = holding(1) + &format!("laptop_enter 1 FF01 1\n{end}\nlaptop_report 1 FF01\n");
        let lines = [
            format!(
                "{end}: accepted, handed 0 {told} FF01 4 1 0 00000000 1, sends nothing, {state}"
            ),
            "laptop_report 1 FF01: 0 entered".to_string(),
        ];
        assert_eq!(printed(&steps)[7..], lines);
    }
}

#[test]
fn short_runs_refuse_the_calls_of_their_own_side() {
    let fresh = "awaited 0 - - -, partner 0 - - - 0 0 - - 21, cable 0 - - - 0 0 - - 21";
    let steps = "runs 1 432 431\nlaptop_fresh\nlaptop_drop 1\nlaptop_drop 0\nruns 1 432 432\nlaptop_drop 1\n";
    let lines = [
        "runs 1 432 431: set".to_string(),
        format!("laptop_fresh: made, {fresh}"),
        format!("laptop_drop 1: refused 11, changed nothing, {fresh}"),
        format!(
            "laptop_drop 0: accepted, handed 0 0 0000 0 0 0 00000000 0, sends nothing, {fresh}"
        ),
        "runs 1 432 432: set".to_string(),
        format!(
            "laptop_drop 1: accepted, handed 0 0 0000 0 0 0 00000000 1, sends nothing, {fresh}"
        ),
    ];
    assert_eq!(printed(steps), lines);
}

#[test]
fn a_side_other_than_the_cable_is_the_partner() {
    let led_to = |side| -> Vec<String> {
        let lines = printed(&holding(side)).into_iter();
        let split = lines.filter_map(|line| Some(line.split_once(": ")?.1.to_string()));
        split.collect()
    };
    for side in [2, 129, 255] {
        assert_eq!(led_to(side), led_to(0));
    }
    assert_ne!(led_to(1), led_to(0));
}

#[test]
fn bytes_are_two_digits_each_and_an_attention_is_handed_over_whole() {
    let fresh = "awaited 0 - - -, partner 0 - - - 0 0 - - 21, cable 0 - - - 0 0 - - 21";
    let attention = "FF01A206 00000007: accepted, handed 0 1 FF01 6 2 1 00000007";
    let lines = [
        "dock_message 00A001: refused 1, changed nothing, state 0 0 0 ready 21".to_string(),
        format!("laptop_message 0 {attention} 0, sends nothing, {fresh}"),
        format!("laptop_message 1 {attention} 1, sends nothing, {fresh}"),
    ];
    let steps = "dock_message 00A001\nlaptop_message 0 FF01A206 00000007\nlaptop_message 1 FF01A206 00000007\n";
    assert_eq!(printed(steps), lines);
}

#[test]
fn a_catalogue_that_is_read_is_shown_whole() {
    let bytes = "03 11112222 00000000 FFFFFFFF 10 FF01 20 00000405 00";
    let none = "04 00000001 00000002 00000003 00000004 00";
    let steps = format!(
        "catalogue_read 432 {bytes}\ncatalogue_read 432 {none}\ncatalogue_stretch FF01 {bytes}\n"
    );
    let lines = [
        format!("catalogue_read 432 {bytes}: accepted, offset 22, sizes 3 1 1, identity 11112222 00000000 FFFFFFFF, svids FF01, modes 1, run 0 is 00000405"),
        format!("catalogue_read 432 {none}: accepted, offset 18, sizes 4 0 0, identity 00000001 00000002 00000003 00000004, svids nothing, modes nothing"),
        format!("catalogue_stretch FF01 {bytes}: accepted, offset 16, length 5, bytes 2005040000"),
    ];
    assert_eq!(printed(&steps), lines);
}

#[test]
fn bytes_that_are_refused_show_the_offset() {
    let identity = "03 00000001 00000002 00000003";
    let answers = [
        ("catalogue_read 431".to_string(), "11, offset 0"),
        ("catalogue_read 432".to_string(), "16, offset 0"),
        (format!("catalogue_read 432 {identity} 21"), "15, offset 13"),
        (
            format!("catalogue_read 432 {identity} 10 0000"),
            "17, offset 13",
        ),
        (
            format!("catalogue_read 432 {identity} 00 00"),
            "18, offset 14",
        ),
        (
            format!("catalogue_stretch 0001 {identity} 00"),
            "12, offset 0",
        ),
        (
            format!("catalogue_stretch 0001 {identity}"),
            "16, offset 13",
        ),
    ];
    for (step, answer) in answers {
        let line = format!("{step}: refused {answer}, changed nothing");
        assert_eq!(printed(&step), [line]);
    }
}

#[test]
fn a_mended_catalogue_is_shown_whole() {
    let identity = "03 11112222 00000000 FFFFFFFF";
    let svid = format!("{identity} 10 FF01");
    let whole = "kept 1 1 22, bytes 032222111100000000FFFFFFFF1001FF200504000000";
    let alone = "kept 0 0 14, bytes 032222111100000000FFFFFFFF00";
    let answers = [
        (
            format!("22 {svid} 20 00000405 00"),
            format!("sound, {whole}"),
        ),
        (
            format!("2410 {svid} 20 00000405 00"),
            format!("sound, {whole}"),
        ),
        (format!("14 {identity} 00"), format!("sound, {alone}")),
        (
            format!("22 {svid} 20 00000405"),
            format!("partial 16, offset 21, {whole}"),
        ),
        (
            format!("2402 {svid} 20 000405"),
            format!("partial 16, offset 16, {alone}"),
        ),
        (
            format!("14 {identity} 10 01"),
            format!("partial 16, offset 13, {alone}"),
        ),
        (
            format!("2402 {svid} 21 20 00000405 00"),
            format!("partial 15, offset 16, {alone}"),
        ),
        (
            format!("2402 {svid} 00"),
            format!("partial 17, offset 16, {alone}"),
        ),
        (
            format!("2402 {svid} 20 00000405 00 00"),
            format!("partial 18, offset 22, {whole}"),
        ),
    ];
    for (words, answer) in answers {
        let step = format!("catalogue_mend {words}");
        assert_eq!(printed(&step), [format!("{step}: {answer}")]);
    }
}

#[test]
fn bytes_that_are_not_mended_show_the_refusal() {
    let identity = "03 00000001 00000002 00000003";
    let answers = [
        ("2402".to_string(), 19),
        ("0".to_string(), 19),
        ("0 21".to_string(), 19),
        ("2402 00".to_string(), 19),
        ("2402 03 00000001 00000002 000003".to_string(), 19),
        (format!("2402 10 FF01 {identity} 00"), 19),
        (format!("13 {identity} 00"), 11),
        (format!("13 {identity}"), 11),
        (format!("0 {identity} 00 00"), 11),
    ];
    for (words, refusal) in answers {
        let step = format!("catalogue_mend {words}");
        let line = format!("{step}: refused {refusal}, offset 0, changed nothing");
        assert_eq!(printed(&step), [line]);
    }
}

#[test]
fn again_makes_the_last_two_steps_so_many_times_more() {
    let steps = "dock_message FF00A002\ndock_sent\nlaptop_next 1\nlaptop_response_timer\nagain 3\nlaptop_next 1\n";
    let lines = printed(steps);
    assert_eq!(lines[4], "again 3");
    assert_eq!(lines[5], lines[2]);
}

#[test]
fn an_unknown_step_is_an_error() {
    for steps in [
        "laptop_sleep\n",
        "dock_answer 0\n",
        "laptop_enter 0 FF01\n",
        "laptop_next\n",
        "laptop_next 256\n",
        "laptop_message FF00A0C1\n",
        "runs 432 432\n",
        "catalogue_read\n",
        "catalogue_stretch\n",
        "catalogue_mend\n",
        "catalogue_mend 2411\n",
        "catalogue_find 432\n",
    ] {
        assert!(print_lines(&mut steps.as_bytes(), &mut Vec::new()).is_err());
    }
}
