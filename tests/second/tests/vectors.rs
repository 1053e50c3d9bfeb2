//! The stream of vectors and its answers, held against lines written by hand.

use second::vectors::answers::print_answers;
use second::vectors::generator::generate;
use second::vectors::tally::Tally;
use second::vectors::Vector;

fn answers(mut stream: &[u8]) -> String {
    let mut output = Vec::new();
    print_answers(&mut stream, &mut output).unwrap();
    String::from_utf8(output).unwrap()
}

const READ_ENTER: [u8; 6] = [1, 4, 0x04, 0xA1, 0x01, 0xFF];
/// An SVIDs ACK at 2.0 with one object and a room of 9 bytes.
const WRITE_LIST: [u8; 13] = [2, 0x00, 0xFF, 2, 1, 0, 20, 9, 1, 0x00, 0x00, 0x01, 0xFF];
/// The same with a room of 3 bytes, and without a room.
const WRITE_SHORT: [u8; 13] = [2, 0x00, 0xFF, 2, 1, 0, 20, 3, 1, 0x00, 0x00, 0x01, 0xFF];
const WRITE_NOWHERE: [u8; 13] = [2, 0x00, 0xFF, 2, 1, 0, 20, 0, 1, 0x00, 0x00, 0x01, 0xFF];
/// An Identity request with room for it, at 1.0, at 2.1, and at a number that is no edition.
const WRITE_FIRST: [u8; 9] = [2, 0x00, 0xFF, 1, 0, 0, 10, 4, 0];
const WRITE_OURS: [u8; 9] = [2, 0x00, 0xFF, 1, 0, 0, 21, 4, 0];
const WRITE_NO_EDITION: [u8; 9] = [2, 0x00, 0xFF, 1, 0, 0, 11, 4, 0];
/// An Identity request of major 1 and minor 3, and of major 0 and minor 1.
const READ_OURS: [u8; 6] = [1, 4, 0x01, 0xB8, 0x00, 0xFF];
const READ_FIRST: [u8; 6] = [1, 4, 0x01, 0x88, 0x00, 0xFF];
const READ_LIST: [u8; 10] = [1, 8, 0x42, 0xA0, 0x00, 0xFF, 0x00, 0x00, 0x01, 0xFF];
const READ_NOTHING: [u8; 2] = [1, 0];

#[test]
fn every_form_of_line_is_as_agreed() {
    let stream = [
        &READ_ENTER[..],
        &READ_LIST,
        &READ_NOTHING,
        &WRITE_LIST,
        &WRITE_SHORT,
        &WRITE_NOWHERE,
        &WRITE_FIRST,
        &WRITE_OURS,
        &WRITE_NO_EDITION,
        &READ_OURS,
        &READ_FIRST,
    ]
    .concat();
    let expected = "vector answer\n\
        1 read 0 2.0 FF01 4 0 1\n\
        2 read 0 2.0 FF00 2 1 0 FF010000\n\
        3 read 1\n\
        4 write 0 42A000FF000001FF5A\n\
        5 write 11 5A5A5A\n\
        6 write 11\n\
        7 write 0 018000FF\n\
        8 write 0 01A800FF\n\
        9 write 5 5A5A5A5A\n\
        10 read 0 2.1 FF00 1 0 0\n\
        11 read 0 1.0 FF00 1 0 0\n\
        end 11 vectors\n";
    assert_eq!(answers(&stream), expected);
}

#[test]
fn an_empty_stream_ends_at_once() {
    assert_eq!(answers(&[]), "vector answer\nend 0 vectors\n");
}

#[test]
fn an_unknown_kind_stops_the_answers() {
    for kind in [0, 3, 255] {
        let stream = [&READ_NOTHING[..], &[kind], &READ_NOTHING].concat();
        let expected = "vector answer\n1 read 1\nunknown kind after 1 vectors\n";
        assert_eq!(answers(&stream), expected);
    }
}

#[test]
fn a_vector_cut_anywhere_stops_the_answers() {
    for vector in [&READ_ENTER[..], &WRITE_LIST] {
        for length in 1..vector.len() {
            let stream = [&READ_NOTHING, &vector[..length]].concat();
            let expected = "vector answer\n1 read 1\ncut after 1 vectors\n";
            assert_eq!(answers(&stream), expected);
        }
    }
}

#[test]
fn the_input_counts_as_ended_after_a_million() {
    let printed = answers(&READ_NOTHING.repeat(1_000_001));
    assert!(printed.ends_with("\n1000000 read 1\nend 1000000 vectors\n"));
}

#[test]
fn generated_vectors_leave_no_answer_out_and_come_back_from_bytes() {
    for seed in [0, 1, 2, u64::MAX] {
        let mut tally = Tally::default();
        let mut stream = Vec::new();
        for vector in generate(seed) {
            tally.count(&vector);
            vector.put(&mut stream).unwrap();
        }
        assert_eq!(tally.missing(), Vec::<String>::new());
        let mut again = Vec::new();
        let mut input = &stream[..];
        while let Ok(vector) = Vector::take(&mut input) {
            vector.put(&mut again).unwrap();
        }
        assert_eq!(again, stream);
    }
}

/// Eight answers, 32 times 4 pairs of command and type, and with bit 5 the 73 that the table takes. Of
/// editions: 16 versions, 3 read and 3 written, 7 numbers that are none, and the 73 at each.
#[test]
fn nothing_counted_is_everything_missing() {
    let of_editions = 16 + 3 + 3 + 7 + 2 * 3 * 73;
    assert_eq!(Tally::default().missing().len(), 8 + 128 + 73 + of_editions);
}
