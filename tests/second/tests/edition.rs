//! The editions, held against values worked out by hand from document 02.

use second::edition::Edition::{self, OneZero, TwoOne, TwoZero};
use second::edition::OURS;

#[test]
fn the_lower_of_each_of_the_nine_pairs() {
    let pairs = [
        (OneZero, OneZero, OneZero),
        (OneZero, TwoZero, OneZero),
        (OneZero, TwoOne, OneZero),
        (TwoZero, OneZero, OneZero),
        (TwoZero, TwoZero, TwoZero),
        (TwoZero, TwoOne, TwoZero),
        (TwoOne, OneZero, OneZero),
        (TwoOne, TwoZero, TwoZero),
        (TwoOne, TwoOne, TwoOne),
    ];
    for (one, other, lower) in pairs {
        assert_eq!(one.lower(other), lower);
    }
}

#[test]
fn ours_is_2_1_the_highest() {
    assert_eq!(OURS, TwoOne);
    assert_eq!(Edition::default(), OURS);
    assert!(Edition::ALL
        .iter()
        .all(|edition| edition.lower(OURS) == *edition));
}

#[test]
fn each_has_its_number_and_text() {
    let named = [
        (OneZero, 10, "1.0"),
        (TwoZero, 20, "2.0"),
        (TwoOne, 21, "2.1"),
    ];
    for (edition, number, text) in named {
        assert_eq!(edition.number(), number);
        assert_eq!(Edition::of_number(number), Some(edition));
        assert_eq!(edition.to_string(), text);
    }
    let numbers = (0..=u8::MAX).filter(|&number| Edition::of_number(number).is_some());
    assert_eq!(numbers.count(), 3);
}

#[test]
fn majors_2_and_3_are_no_edition() {
    for minor in 0..=3 {
        assert_eq!(Edition::of_version(2, minor), None);
        assert_eq!(Edition::of_version(3, minor), None);
    }
}
