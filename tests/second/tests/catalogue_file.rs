//! Reading a catalogue file, held against the corners of 02's R-1, number and offset.

use second::catalogue::Catalogue;
use second::catalogue_file::{read, stretch, Lent, Refused, Sizes};
use second::catalogue_files::generator::{generate, CASE_L};
use second::catalogue_files::Asked;
use second::record::Record;

const UNWRITTEN: u8 = 0xEE;
const UNWRITTEN_WORD: u32 = 0xEEEE_EEEE;
/// Case L's identity, its SVID and its mode; each is a record.
const IDENTITY: &[u8] = CASE_L.split_at(13).0;
const SVID: &[u8] = &[0x10, 0x01, 0xFF];
const MODE: &[u8] = &[0x20, 0x05, 0x04, 0, 0];
const END: &[u8] = &[0x00];
const OTHER_SVID: &[u8] = &[0x10, 0x02, 0x00];
const SVID_ZERO: &[u8] = &[0x10, 0x00, 0x00];
const UNKNOWN: &[u8] = &[0x21];

/// What reading answers, with 0 and the length for a sound file. A refusal changes nothing that is
/// lent, and the stretch of any SVID is refused the same.
fn answer(records: &[&[u8]]) -> (u8, usize) {
    let bytes = records.concat();
    let unwritten = Lent::filled_with(UNWRITTEN, 440);
    let mut lent = unwritten.clone();
    let Err(refused) = lent.read(&bytes, 432) else {
        return (0, bytes.len());
    };
    assert_eq!(lent, unwritten);
    for svid in [0, 1, 2, 0xFF01] {
        assert_eq!(stretch(&bytes, svid), Err(refused));
    }
    (refused.refusal, refused.offset)
}

fn refused(refusal: u8, offset: usize) -> Refused {
    Refused { refusal, offset }
}

/// An SVID record for each number, with so many modes each.
fn listed(svids: impl Iterator<Item = u16>, modes: usize) -> Vec<u8> {
    let modes = MODE.repeat(modes);
    svids
        .flat_map(|svid| [&[0x10], &svid.to_le_bytes()[..], &modes].concat())
        .collect()
}

/// The longest file but for its end.
fn longest_but_end() -> Vec<u8> {
    let identity: Vec<u8> = (0..25)
        .map(|place| if place == 0 { 6 } else { 9 })
        .collect();
    [identity, listed(1..=72, 6)].concat()
}

#[test]
fn case_l_is_rebuilt() {
    let mut lent = Lent::filled_with(UNWRITTEN, 440);
    let sizes = Sizes {
        objects: 3,
        svids: 1,
        modes: 1,
    };
    assert_eq!(lent.read(&CASE_L, 440), Ok(sizes));
    assert_eq!(lent.identity, [0x1111_2222, 0, 0xFFFF_FFFF, 0, 0, 0]);
    assert_eq!(lent.svids[..2], [0xFF01, 0]);
    assert!(lent.svids[1..].iter().all(|&svid| svid == 0));
    assert_eq!(lent.mode_counts[..2], [1, 0]);
    assert!(lent.mode_counts[1..].iter().all(|&count| count == 0));
    assert_eq!(lent.run[0], 0x405);
    assert!(lent.run[1..].iter().all(|&word| word == UNWRITTEN_WORD));
    assert_eq!(stretch(&CASE_L, 0xFF01), Ok(16..21));
}

#[test]
fn svid_i_has_words_from_6i_on_and_the_others_stay() {
    let bytes = [IDENTITY, &listed(1..=72, 2), END].concat();
    let mut lent = Lent::filled_with(UNWRITTEN, 440);
    assert_eq!(lent.read(&bytes, 432).map(|sizes| sizes.modes), Ok(144));
    for (place, &word) in lent.run.iter().enumerate() {
        let is_mode = place < 432 && place % 6 < 2;
        assert_eq!(word, if is_mode { 0x405 } else { UNWRITTEN_WORD });
    }
    assert_eq!(lent.mode_counts, [2; 72]);
    assert_eq!(lent.svids[71], 72);
}

#[test]
fn a_fault_is_at_the_start_of_its_record() {
    assert_eq!(answer(&[IDENTITY, SVID_ZERO, MODE, END]), (17, 13));
    assert_eq!(
        answer(&[IDENTITY, SVID, MODE, SVID_ZERO, MODE, END]),
        (17, 21)
    );
}

#[test]
fn a_cut_body_is_16_at_the_start_of_its_record() {
    for length in 1..13 {
        assert_eq!(answer(&[&IDENTITY[..length]]), (16, 0));
    }
    for length in 1..3 {
        assert_eq!(answer(&[IDENTITY, &SVID[..length]]), (16, 13));
    }
    for length in 1..5 {
        assert_eq!(answer(&[IDENTITY, SVID, &MODE[..length]]), (16, 16));
    }
}

#[test]
fn bytes_that_stop_at_a_border_are_16_at_their_length() {
    assert_eq!(answer(&[IDENTITY]), (16, 13));
    assert_eq!(answer(&[IDENTITY, SVID, MODE]), (16, 21));
}

#[test]
fn no_bytes_are_16_at_0() {
    assert_eq!(answer(&[]), (16, 0));
}

#[test]
fn an_svid_or_the_end_behind_a_bare_svid_is_17_at_the_second_record() {
    assert_eq!(answer(&[IDENTITY, SVID, OTHER_SVID, MODE, END]), (17, 16));
    assert_eq!(answer(&[IDENTITY, SVID, SVID, MODE, END]), (17, 16));
    assert_eq!(answer(&[IDENTITY, SVID, END]), (17, 16));
}

#[test]
fn an_unknown_kind_behind_a_bare_svid_is_15_and_nothing_is_16() {
    assert_eq!(answer(&[IDENTITY, SVID, UNKNOWN]), (15, 16));
    assert_eq!(answer(&[IDENTITY, SVID]), (16, 16));
}

#[test]
fn a_cut_mode_at_the_front_is_16_and_a_whole_one_17() {
    for length in 1..5 {
        assert_eq!(answer(&[&MODE[..length]]), (16, 0));
    }
    assert_eq!(answer(&[MODE]), (17, 0));
}

#[test]
fn a_cut_seventh_mode_is_16_and_a_whole_one_17() {
    let six = [IDENTITY, &listed(1..=1, 6)].concat();
    assert_eq!(answer(&[&six, END]), (0, 47));
    for length in 1..5 {
        assert_eq!(answer(&[&six, &MODE[..length]]), (16, 46));
    }
    assert_eq!(answer(&[&six, MODE]), (17, 46));
    assert_eq!(answer(&[&six, MODE, END]), (17, 46));
}

#[test]
fn an_unknown_kind_is_15_wherever_it_stands_and_as_the_last_byte() {
    for records in [&[][..], &[IDENTITY], &[IDENTITY, SVID, MODE]] {
        let before = records.concat();
        for behind in [&[][..], END, &CASE_L] {
            assert_eq!(answer(&[&before, UNKNOWN, behind]), (15, before.len()));
        }
    }
}

#[test]
fn every_other_kind_is_unknown() {
    let known = [0x00, 0x03, 0x04, 0x05, 0x06, 0x10, 0x20];
    for kind in 0..=u8::MAX {
        let (refusal, offset) = answer(&[IDENTITY, &[kind], &[0; 24]]);
        assert_eq!(refusal != 15, known.contains(&kind), "{kind:02X}");
        assert!(refusal != 15 || offset == 13);
    }
}

#[test]
fn an_svid_seen_before_is_17_adjacent_or_far() {
    let listed = listed(1..=71, 1);
    for svid in [1, 35, 71] {
        let again = [0x10, svid, 0x00];
        let offset = 13 + 71 * 8;
        assert_eq!(
            answer(&[IDENTITY, &listed, &again, MODE, END]),
            (17, offset)
        );
    }
}

#[test]
fn a_73rd_svid_is_17() {
    let full = [IDENTITY, &listed(1..=72, 1)].concat();
    assert_eq!(answer(&[&full, END]), (0, 590));
    assert_eq!(answer(&[&full, SVID, MODE, END]), (17, 589));
    assert_eq!(answer(&[&full, &SVID[..2]]), (16, 589));
}

#[test]
fn a_second_identity_is_17() {
    assert_eq!(answer(&[IDENTITY, IDENTITY, END]), (17, 13));
    assert_eq!(answer(&[IDENTITY, SVID, IDENTITY, END]), (17, 16));
    assert_eq!(answer(&[IDENTITY, SVID, MODE, IDENTITY, END]), (17, 21));
}

#[test]
fn a_mode_before_any_svid_is_17() {
    assert_eq!(answer(&[IDENTITY, MODE, END]), (17, 13));
}

#[test]
fn an_end_or_an_svid_first_is_17() {
    assert_eq!(answer(&[END]), (17, 0));
    assert_eq!(answer(&[END, END]), (17, 0));
    assert_eq!(answer(&[SVID, IDENTITY, MODE, END]), (17, 0));
}

#[test]
fn behind_the_end_all_is_18_at_the_first_such_byte() {
    let tails = [END, UNKNOWN, &MODE[..2], SVID, MODE, IDENTITY, &CASE_L];
    for tail in tails {
        assert_eq!(answer(&[&CASE_L, tail]), (18, 22));
        assert_eq!(answer(&[IDENTITY, END, tail]), (18, 14));
    }
}

#[test]
fn a_wrong_end_is_17_though_bytes_follow() {
    for tail in [END, UNKNOWN, &MODE[..2], MODE] {
        assert_eq!(answer(&[IDENTITY, SVID, END, tail]), (17, 16));
    }
}

#[test]
fn identity_and_end_alone_are_a_catalogue_of_no_svids() {
    for objects in 3..=6 {
        let mut bytes = vec![objects];
        bytes.resize(1 + 4 * usize::from(objects), 0xFF);
        bytes.push(0);
        let mut lent = Lent::filled_with(UNWRITTEN, 432);
        let sizes = Sizes {
            objects: objects.into(),
            svids: 0,
            modes: 0,
        };
        assert_eq!(lent.read(&bytes, 432), Ok(sizes));
        assert_eq!((lent.svids, lent.mode_counts), ([0; 72], [0; 72]));
        assert!(lent.run.iter().all(|&word| word == UNWRITTEN_WORD));
        assert_eq!(stretch(&bytes, 0xFF01), Err(refused(12, 0)));
    }
}

#[test]
fn modes_and_identity_objects_are_any_number() {
    for byte in [0x00, 0x10, 0x20, 0xFF] {
        let body = [byte; 12];
        let mode = [&[0x20], &body[..4]].concat();
        assert_eq!(answer(&[&[3], &body, SVID, &mode, END]), (0, 22));
    }
}

#[test]
fn a_short_run_is_11_before_everything() {
    let damaged = [&CASE_L[..], END].concat();
    for bytes in [&[][..], &CASE_L, &CASE_L[..21], UNKNOWN, END, &damaged] {
        for words in [0, 1, 431] {
            let mut lent = Lent::filled_with(UNWRITTEN, 440);
            assert_eq!(lent.read(bytes, words), Err(refused(11, 0)));
            assert_eq!(lent, Lent::filled_with(UNWRITTEN, 440));
        }
        for words in [432, 433, 440] {
            let result = Lent::filled_with(UNWRITTEN, words).read(bytes, words);
            assert_eq!(result.is_ok(), bytes == CASE_L);
            assert!(result != Err(refused(11, 0)));
        }
    }
}

#[test]
fn an_svid_that_a_sound_file_lacks_is_12_and_svid_0_always_is() {
    for svid in [0, 1, 0x01FF, 0xFF00, 0xFF02, 0x0405, 0x1111] {
        assert_eq!(stretch(&CASE_L, svid), Err(refused(12, 0)));
    }
}

#[test]
fn a_stretch_has_the_mode_records_alone() {
    let mut bytes = IDENTITY.to_vec();
    let mut stretches = Vec::new();
    for modes in 1..=6 {
        bytes.extend(listed(modes..=modes, 0));
        let start = bytes.len();
        bytes.extend(MODE.repeat(modes.into()));
        stretches.push((modes, start..bytes.len()));
    }
    bytes.push(0);
    for (svid, places) in stretches {
        assert_eq!(places.len(), 5 * usize::from(svid));
        assert_eq!(stretch(&bytes, svid), Ok(places));
    }
}

#[test]
fn what_the_writer_wrote_is_the_part_it_wrote() {
    let mut run = vec![UNWRITTEN_WORD; 432];
    let catalogue = read(&CASE_L, &mut run).unwrap();
    let mut out = [UNWRITTEN; 23];
    let length = catalogue.write(&run, &mut out).unwrap();
    assert_eq!(answer(&[&out[..length]]), (0, 22));
    assert_eq!(answer(&[&out]), (18, 22));
}

#[test]
fn a_catalogue_past_its_limits_writes_a_file_that_is_refused() {
    let mut catalogue = Catalogue::of_identity(&[1, 2, 3]);
    catalogue.svids = vec![7];
    catalogue.mode_counts = vec![0];
    let mut out = [UNWRITTEN; 64];
    let length = catalogue.write(&[0; 432], &mut out).unwrap();
    assert_eq!(answer(&[&out[..length]]), (17, 16));
}

#[test]
fn a_catalogue_that_was_written_reads_the_same() {
    let mut run = vec![UNWRITTEN_WORD; 432];
    let mut catalogue = Catalogue::of_identity(&[1, 0, u32::MAX, 4]);
    catalogue.svids = vec![0xFFFF, 1, 0x1020];
    for modes in [&[0, u32::MAX][..], &[1, 2, 3, 4, 5, 6], &[7]] {
        catalogue.store_modes(modes, &mut run);
    }
    let mut out = [UNWRITTEN; 2402];
    let length = catalogue.write(&run, &mut out).unwrap();
    let mut other_run = vec![UNWRITTEN_WORD; 432];
    assert_eq!(read(&out[..length], &mut other_run), Ok(catalogue));
    assert_eq!(other_run, run);
}

#[test]
fn every_beginning_of_a_sound_file_is_16() {
    let middling = [IDENTITY, &listed(1..=13, 3), END].concat();
    let longest = [&longest_but_end()[..], END].concat();
    for bytes in [&CASE_L[..], &middling, &longest] {
        assert_eq!(answer(&[bytes]), (0, bytes.len()));
        for length in 0..bytes.len() {
            let (refusal, offset) = answer(&[&bytes[..length]]);
            assert_eq!(refusal, 16);
            assert!(offset <= length && length < offset + 25);
        }
    }
}

#[test]
fn what_can_follow_the_longest_beginning() {
    let bytes = longest_but_end();
    assert_eq!(answer(&[&bytes]), (16, 2401));
    assert_eq!(answer(&[&bytes, END]), (0, 2402));
    assert_eq!(answer(&[&bytes, END, END]), (18, 2402));
    assert_eq!(answer(&[&bytes, UNKNOWN]), (15, 2401));
    assert_eq!(answer(&[&bytes, SVID]), (17, 2401));
    assert_eq!(answer(&[&bytes, MODE]), (17, 2401));
    assert_eq!(answer(&[&bytes, &bytes[..24]]), (16, 2401));
    assert_eq!(answer(&[&bytes, &bytes[..25]]), (17, 2401));
}

#[test]
fn bytes_past_2426_never_matter() {
    let mut longer = 0;
    for file in generate(3) {
        let Some(front) = file.bytes.get(..2426) else {
            continue;
        };
        longer += 1;
        let expected = answer(&[front]);
        for tail in [&[][..], END, UNKNOWN, MODE, &CASE_L, &[0xFF; 600]] {
            assert_eq!(answer(&[front, tail]), expected);
        }
        assert_eq!(answer(&[&file.bytes]), expected);
    }
    assert!(longer > 10);
}

#[test]
fn accepted_bytes_written_again_are_the_same_bytes() {
    let mut sound = 0;
    for file in generate(4) {
        let mut run = vec![UNWRITTEN_WORD; 432];
        let Ok(catalogue) = read(&file.bytes, &mut run) else {
            continue;
        };
        sound += 1;
        let mut out = vec![UNWRITTEN; 2402];
        let length = catalogue.write(&run, &mut out).unwrap();
        assert_eq!(out[..length], file.bytes);
    }
    assert!(sound > 2000);
}

/// What a fault names: the records before it can be continued to a sound file, and those up to it
/// cannot, unless the bytes only stop too early.
#[test]
fn the_records_before_a_fault_are_the_beginning_of_a_sound_file() {
    for file in generate(5) {
        let Asked::Catalogue { .. } = file.asked else {
            continue;
        };
        let (refusal, offset) = answer(&[&file.bytes]);
        let before = &file.bytes[..offset];
        match refusal {
            0 => {}
            18 => assert_eq!(answer(&[before]), (0, offset)),
            _ => {
                assert_eq!(answer(&[before]), (16, offset));
                let ends = [&[][..], MODE];
                assert!(ends.iter().any(|end| answer(&[before, end, END]).0 == 0) || offset == 0);
            }
        }
    }
}

#[test]
fn the_record_at_an_offset() {
    let identity = Record::Identity(vec![0x1111_2222, 0, 0xFFFF_FFFF]);
    assert_eq!(Record::at(&CASE_L, 0), Ok(Some((identity, 13))));
    assert_eq!(
        Record::at(&CASE_L, 13),
        Ok(Some((Record::Svid(0xFF01), 16)))
    );
    assert_eq!(Record::at(&CASE_L, 16), Ok(Some((Record::Mode(0x405), 21))));
    assert_eq!(Record::at(&CASE_L, 21), Ok(Some((Record::End, 22))));
    assert_eq!(Record::at(&CASE_L, 1), Err(15));
    assert_eq!(Record::at(&CASE_L[..20], 16), Err(16));
    assert_eq!(Record::at(&CASE_L, 22), Ok(None));
}

#[test]
fn an_offset_past_the_bytes_is_16() {
    for offset in [23, 24, usize::MAX] {
        assert_eq!(Record::at(&CASE_L, offset), Err(16));
    }
    assert_eq!(Record::at(&[], 0), Ok(None));
    assert_eq!(Record::at(&[], 1), Err(16));
}
