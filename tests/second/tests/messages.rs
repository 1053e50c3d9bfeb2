//! Reading and writing messages, held against values worked out by hand from documents 01 and 02.

use second::edition::Edition;
use second::messages::{
    read, write, Message, ACK, ATTENTION, BUSY, ENTER, EXIT, IDENTITY, MODES, NAK, PD_SID, REQ,
    SVIDS,
};

/// 2.0, at which messages are written where nothing else is said.
const NUMBER: u8 = 20;

/// SVID, command, type and position.
type Fields = (u16, u8, u8, u8);
/// The least and the most objects after the header, or no such message.
type Limits = Option<(usize, usize)>;
const NONE: Limits = None;
const LONE: Limits = Some((0, 0));
const ANY: Limits = Some((0, 6));

const UNWRITTEN: u8 = 0x5A;
const OBJECTS: [u32; 6] = [0x0000_0000, 0xFFFF_FFFF, 0x0102_0304, 5, 0x8000_0000, 7];

fn bytes(objects: &[u32]) -> Vec<u8> {
    objects.iter().flat_map(|word| word.to_le_bytes()).collect()
}

/// The fields and the objects after the header.
fn reading(objects: &[u32]) -> Result<(Fields, Vec<u32>), u8> {
    read(&bytes(objects)).map(|message| (fields(&message), message.objects.as_slice().to_vec()))
}

fn fields(message: &Message) -> Fields {
    (
        message.svid,
        message.command,
        message.kind,
        message.position,
    )
}

/// The answer to writing with room for just that many bytes, and the buffer after it.
fn writing(fields: Fields, objects: &[u32], room: usize) -> (u8, Vec<u8>) {
    writing_at(NUMBER, fields, objects, room)
}

/// The same at the edition of that number.
fn writing_at(number: u8, fields: Fields, objects: &[u32], room: usize) -> (u8, Vec<u8>) {
    let (svid, command, kind, position) = fields;
    let mut out = vec![UNWRITTEN; room];
    let answer = write(svid, command, kind, position, number, objects, &mut out);
    (answer, out)
}

/// The SVID with every command, type, position and number of objects after the header.
fn all_fields(svid: u16) -> Vec<(Fields, usize)> {
    (0..=31)
        .flat_map(|command| (0..=3).map(move |kind| (command, kind)))
        .flat_map(|(command, kind)| (0..=7).map(move |position| (svid, command, kind, position)))
        .flat_map(|fields| (0..=6).map(move |count| (fields, count)))
        .collect()
}

#[test]
fn case_9_is_enter_req_at_position_1() {
    assert_eq!(
        reading(&[0xFF01_A104]),
        Ok(((0xFF01, ENTER, REQ, 1), vec![]))
    );
}

#[test]
fn messages_of_case_l_are_read_and_written() {
    let identity = vec![0x1234_5678, 0, 0xFFFF_FFFF];
    let messages: [(u32, Fields, Vec<u32>); 6] = [
        (0xFF00_A001, (PD_SID, IDENTITY, REQ, 0), vec![]),
        (0xFF00_A041, (PD_SID, IDENTITY, ACK, 0), identity),
        (0xFF00_A002, (PD_SID, SVIDS, REQ, 0), vec![]),
        (0xFF00_A042, (PD_SID, SVIDS, ACK, 0), vec![0xFF01_0000]),
        (0xFF01_A003, (0xFF01, MODES, REQ, 0), vec![]),
        (0xFF01_A043, (0xFF01, MODES, ACK, 0), vec![0x0000_0405]),
    ];
    for (header, fields, objects) in messages {
        let words = [&[header], &objects[..]].concat();
        assert_eq!(reading(&words), Ok((fields, objects.clone())));
        let room = 4 * words.len();
        assert_eq!(writing(fields, &objects, room), (0, bytes(&words)));
    }
}

#[test]
fn lengths_other_than_4_8_to_28_are_refused_1() {
    let longest = bytes(&[0xFF00_A042; 8]);
    for length in 0..=longest.len() {
        let whole = [4, 8, 12, 16, 20, 24, 28].contains(&length);
        assert_eq!(read(&longest[..length]) != Err(1), whole, "{length} bytes");
    }
}

#[test]
fn each_header_fault_has_its_number() {
    assert_eq!(reading(&[0xFF00_2001]), Err(2));
    assert_eq!(reading(&[0xFF00_C001]), Err(3));
    assert_eq!(reading(&[0xFF00_E001]), Err(3));
    assert_eq!(reading(&[0xFF01_A001]), Err(5));
}

#[test]
fn the_first_fault_in_order_is_given() {
    assert_eq!(read(&[0xFF; 3]), Err(1));
    assert_eq!(reading(&[0x0000_6021]), Err(2));
    assert_eq!(reading(&[0x0000_E021]), Err(3));
    assert_eq!(reading(&[0x0000_A021]), Err(5));
    assert_eq!(reading(&[0x0000_A001]), Err(5));
}

#[test]
fn bit_5_means_nothing_with_any_other_bits() {
    for low in (0..=u16::MAX).filter(|low| low & 0x20 == 0) {
        for high in [0x0000, 0xFF00, 0xFF01] {
            for count in [0, 1, 3] {
                let clear = high << 16 | u32::from(low);
                let [clear, set] = [clear, clear | 0x20]
                    .map(|header| reading(&[&[header], &OBJECTS[..count]].concat()));
                assert_eq!(set, clear, "{low:04X}");
                assert_ne!(set, Err(4));
            }
        }
    }
}

/// Every low half of a header that is read: in that of what is written bit 5 is clear, and the version
/// bits are in the form of the edition.
#[test]
fn a_header_that_was_read_is_written_at_its_own_edition() {
    for low in 0..=u16::MAX {
        let header = 0xFF00 << 16 | u32::from(low);
        for count in [0, 1, 3] {
            let words = [&[header], &OBJECTS[..count]].concat();
            let Ok(message) = read(&bytes(&words)) else {
                continue;
            };
            let version = match low >> 11 & 0xF {
                0..=3 => 0x0000,
                4 => 0x2000,
                _ => 0x2800,
            };
            let low = u32::from(low) & 0x87DF | version;
            let expected = [&[0xFF00 << 16 | low], &OBJECTS[..count]].concat();
            let number = message.edition.number();
            let written = writing_at(number, fields(&message), &OBJECTS[..count], 4 + 4 * count);
            assert_eq!(written, (0, bytes(&expected)), "{header:08X}");
        }
    }
}

#[test]
fn majors_0_and_1_are_read_with_any_minor_as_an_edition() {
    let headers = [
        (0xFF00_8001, Edition::OneZero),
        (0xFF00_8801, Edition::OneZero),
        (0xFF00_9001, Edition::OneZero),
        (0xFF00_9801, Edition::OneZero),
        (0xFF00_A001, Edition::TwoZero),
        (0xFF00_A801, Edition::TwoOne),
        (0xFF00_B001, Edition::TwoOne),
        (0xFF00_B801, Edition::TwoOne),
    ];
    for (header, edition) in headers {
        assert_eq!(reading(&[header]), Ok(((PD_SID, IDENTITY, REQ, 0), vec![])));
        assert_eq!(read(&bytes(&[header])).unwrap().edition, edition);
    }
}

#[test]
fn each_edition_is_written_in_its_own_form() {
    let enter = (0xFF01, ENTER, REQ, 1);
    for (number, header) in [(10, 0xFF01_8104), (20, 0xFF01_A104), (21, 0xFF01_A904)] {
        assert_eq!(writing_at(number, enter, &[], 4), (0, bytes(&[header])));
    }
}

/// Before a short buffer, and with any shape.
#[test]
fn a_number_that_is_no_edition_is_refused_5() {
    for number in (0..=u8::MAX).filter(|number| ![10, 20, 21].contains(number)) {
        for (fields, room) in [
            ((PD_SID, IDENTITY, REQ, 0), 4),
            ((PD_SID, IDENTITY, REQ, 0), 0),
            ((0, IDENTITY, REQ, 0), 4),
        ] {
            let refused = (5, vec![UNWRITTEN; room]);
            assert_eq!(writing_at(number, fields, &[], room), refused);
        }
    }
}

/// By command, for REQ, ACK, NAK and BUSY.
#[test]
fn rows_take_their_object_counts_and_no_others() {
    let rows = [
        (0, [ANY, NONE, LONE, NONE]),
        (IDENTITY, [LONE, Some((3, 6)), LONE, LONE]),
        (SVIDS, [LONE, Some((1, 6)), LONE, LONE]),
        (MODES, [LONE, Some((1, 6)), LONE, LONE]),
        (ENTER, [Some((0, 1)), LONE, LONE, LONE]),
        (EXIT, [LONE, LONE, LONE, LONE]),
        (ATTENTION, [Some((0, 1)), NONE, NONE, NONE]),
        (7, [ANY, NONE, LONE, NONE]),
        (31, [ANY, NONE, LONE, NONE]),
    ];
    for (command, counts) in rows {
        let position = u8::from((ENTER..=ATTENTION).contains(&command));
        for (kind, limits) in [REQ, ACK, NAK, BUSY].into_iter().zip(counts) {
            for count in 0..=6 {
                let fits = limits.is_some_and(|(least, most)| (least..=most).contains(&count));
                let fields = (PD_SID, command, kind, position);
                let (answer, _) = writing(fields, &OBJECTS[..count], 28);
                assert_eq!(answer, if fits { 0 } else { 5 }, "{fields:?} {count}");
            }
        }
    }
}

#[test]
fn positions_and_svids_have_the_edges_of_their_rows() {
    let refusal = |header| reading(&[header]).err();
    assert_eq!(refusal(0xFF00_A101), Some(5));
    assert_eq!(refusal(0xFF01_A002), Some(5));
    assert_eq!(refusal(0x0000_A003), Some(5));
    assert_eq!(refusal(0x0001_A003), None);
    assert_eq!(refusal(0xFF00_A003), None);
    assert_eq!(refusal(0xFFFF_A103), Some(5));
    assert_eq!(refusal(0xFF01_A004), Some(5));
    assert_eq!(refusal(0xFF01_A604), None);
    assert_eq!(refusal(0xFF01_A704), Some(5));
    assert_eq!(refusal(0xFF01_A005), Some(5));
    assert_eq!(refusal(0xFF01_A705), None);
    assert_eq!(refusal(0x0000_A705), Some(5));
    assert_eq!(refusal(0xFF01_A606), None);
    assert_eq!(refusal(0xFF01_A706), Some(5));
    assert_eq!(refusal(0x0000_A000), None);
    assert_eq!(refusal(0xFFFF_A71F), None);
}

/// By command: 7, 9, 9, 5 x 6, 4 x 7, 2 x 6, and 8 x 8 for each of the other 26.
#[test]
fn the_table_takes_as_many_headers_as_counted_by_hand() {
    for (svid, expected) in [(0x0000, 1664), (PD_SID, 1759), (0xFF01, 1743)] {
        let taken = all_fields(svid)
            .into_iter()
            .filter(|&(fields, count)| writing(fields, &OBJECTS[..count], 28).0 == 0)
            .count();
        assert_eq!(taken, expected);
    }
}

#[test]
fn reading_what_was_written_gives_it_again() {
    for edition in Edition::ALL {
        for (fields, count) in [0x0000, PD_SID, 0xFFFF].into_iter().flat_map(all_fields) {
            let objects = &OBJECTS[..count];
            let (answer, out) = writing_at(edition.number(), fields, objects, 4 + 4 * count);
            if answer == 0 {
                let message = read(&out).unwrap();
                assert_eq!(message.objects.as_slice(), objects);
                assert_eq!(self::fields(&message), fields);
                assert_eq!(message.edition, edition);
            }
        }
    }
}

#[test]
fn a_short_buffer_is_refused_11_after_5_and_left_alone() {
    let fields = (PD_SID, SVIDS, ACK, 0);
    for room in 0..8 {
        let refused = (11, vec![UNWRITTEN; room]);
        assert_eq!(writing(fields, &[0xFF01_0000], room), refused);
    }
    assert_eq!(writing(fields, &[], 0), (5, vec![]));
}

#[test]
fn bytes_past_the_message_stay() {
    let (answer, out) = writing((0xFF01, ENTER, REQ, 1), &[], 10);
    assert_eq!(answer, 0);
    let stays = [UNWRITTEN; 6];
    assert_eq!(out, [&[0x04, 0xA1, 0x01, 0xFF], &stays[..]].concat());
}

#[test]
fn fields_too_large_for_the_header_are_a_wrong_shape() {
    let refused = (5, vec![UNWRITTEN; 40]);
    assert_eq!(writing((PD_SID, 32, REQ, 0), &[], 40), refused);
    assert_eq!(writing((PD_SID, 33, REQ, 0), &[], 40), refused);
    assert_eq!(writing((PD_SID, 255, REQ, 0), &[], 40), refused);
    assert_eq!(writing((PD_SID, IDENTITY, 4, 0), &[], 40), refused);
    assert_eq!(writing((PD_SID, IDENTITY, 255, 0), &[], 40), refused);
    assert_eq!(writing((PD_SID, 0, REQ, 8), &[], 40), refused);
    assert_eq!(writing((PD_SID, EXIT, REQ, 9), &[], 40), refused);
    assert_eq!(writing((PD_SID, 0, REQ, 0), &[0; 7], 40), refused);
    assert_eq!(writing((PD_SID, 0, REQ, 0), &[0; 255], 40), refused);
}
