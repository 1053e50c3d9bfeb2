//! Mending a catalogue file, held against the corners of 02's R-6: bytes, number, offset, counts.

use second::catalogue::Catalogue;
use second::catalogue_file::{mend, read, Kept, Lent, Mended, Refused, Sizes};
use second::catalogue_files::generator::{generate, CASE_L};
use second::catalogue_files::Asked;
use second::record::Record;

const UNWRITTEN: u8 = 0xEE;
/// More than any file needs.
const ROOM: usize = 2410;
/// Case L's identity, its SVID and its mode; each is a record.
const IDENTITY: &[u8] = CASE_L.split_at(13).0;
const SVID: &[u8] = &[0x10, 0x01, 0xFF];
const MODE: &[u8] = &[0x20, 0x05, 0x04, 0, 0];
const END: &[u8] = &[0x00];
const OTHER_SVID: &[u8] = &[0x10, 0x02, 0x00];
const OTHER_MODE: &[u8] = &[0x20, 0xFF, 0x10, 0x20, 0x00];
const SVID_ZERO: &[u8] = &[0x10, 0x00, 0x00];
const UNKNOWN: &[u8] = &[0x21];

/// The answer with so much room, and the part that was written: all behind it stays, and with a
/// refusal every byte.
fn mended_in(room: usize, bytes: &[u8]) -> (Result<Mended, u8>, Vec<u8>) {
    let mut out = [UNWRITTEN; ROOM];
    let answer = mend(bytes, &mut out[..room]);
    let length = answer.map_or(0, |mended| mended.kept().length);
    assert!(length <= room);
    assert!(out[length..].iter().all(|&byte| byte == UNWRITTEN));
    (answer, out[..length].to_vec())
}

fn mended(bytes: &[u8]) -> (Mended, Vec<u8>) {
    let (answer, written) = mended_in(ROOM, bytes);
    (answer.unwrap(), written)
}

fn kept(svids: usize, modes: usize, length: usize) -> Kept {
    Kept {
        svids,
        modes,
        length,
    }
}

/// The records mend to these others, partial by the fault and its offset, with so many SVIDs and
/// modes.
#[track_caller]
fn assert_partial(
    records: &[&[u8]],
    (refusal, offset): (u8, usize),
    (svids, modes): (usize, usize),
    expected: &[&[u8]],
) {
    let expected = expected.concat();
    let answer = Mended::Partial {
        fault: Refused { refusal, offset },
        kept: kept(svids, modes, expected.len()),
    };
    assert_eq!(mended(&records.concat()), (answer, expected));
}

#[track_caller]
fn assert_sound(bytes: &[u8], svids: usize, modes: usize) {
    let answer = Mended::Sound(kept(svids, modes, bytes.len()));
    assert_eq!(mended(bytes), (answer, bytes.to_vec()));
}

/// Refused 19, with any room.
#[track_caller]
fn assert_no_identity(bytes: &[u8]) {
    for room in [0, 1, bytes.len(), ROOM] {
        assert_eq!(mended_in(room, bytes), (Err(19), Vec::new()));
    }
}

/// An SVID record for each number, with so many modes each.
fn listed(svids: impl Iterator<Item = u16>, modes: usize) -> Vec<u8> {
    let modes = MODE.repeat(modes);
    svids
        .flat_map(|svid| [&[0x10], &svid.to_le_bytes()[..], &modes].concat())
        .collect()
}

/// An identity of six objects.
fn long_identity() -> Vec<u8> {
    [&[6][..], &[9; 24]].concat()
}

/// Catalogue files of a seed with their first fault, if they have one.
fn files(seed: u64) -> impl Iterator<Item = (Vec<u8>, Option<Refused>)> {
    let files = generate(seed).into_iter();
    let files = files.filter(|file| matches!(file.asked, Asked::Catalogue { .. }));
    files.map(|file| {
        let fault = read(&file.bytes, &mut [0; 432]).err();
        (file.bytes, fault)
    })
}

fn catalogue(bytes: &[u8]) -> (Catalogue, Vec<u32>) {
    let mut run = vec![0; 432];
    (read(bytes, &mut run).unwrap(), run)
}

#[test]
fn a_sound_file_comes_out_the_same() {
    assert_sound(&CASE_L, 1, 1);
    assert_sound(&[IDENTITY, END].concat(), 0, 0);
    assert_sound(&[&long_identity(), END].concat(), 0, 0);
    assert_sound(&[IDENTITY, &listed(1..=13, 3), END].concat(), 13, 39);
    assert_sound(&[IDENTITY, &listed(1..=72, 1), END].concat(), 72, 72);
    let longest = [&long_identity(), &listed(1..=72, 6), END].concat();
    assert_eq!(longest.len(), 2402);
    assert_sound(&longest, 72, 432);
}

#[test]
fn each_whole_mode_before_the_fault_is_kept() {
    let begun = [IDENTITY, SVID, MODE, OTHER_MODE].concat();
    let whole = [&begun, END].concat();
    for length in 0..5 {
        let cut = [&begun, &MODE[..length]];
        assert_partial(&cut, (16, 26), (1, 2), &[&whole]);
    }
    assert_partial(&[&begun, UNKNOWN, MODE, END], (15, 26), (1, 2), &[&whole]);
    assert_partial(&[&begun, SVID, MODE, END], (17, 26), (1, 2), &[&whole]);
}

#[test]
fn the_svids_before_the_last_are_kept_whole() {
    let before = [IDENTITY, &listed(1..=3, 6)].concat();
    let seventh_mode = [&before, OTHER_MODE];
    assert_partial(&seventh_mode, (17, 112), (3, 18), &[&before, END]);
    let begun = [&before, SVID, MODE].concat();
    let cut_mode = [&begun, &MODE[..4]];
    assert_partial(&cut_mode, (16, 120), (4, 19), &[&begun, END]);
}

#[test]
fn the_last_svid_is_left_out_if_no_mode_of_it_was_whole() {
    for behind in [&[][..], &MODE[..1], &MODE[..4], &SVID[..2], &IDENTITY[..12]] {
        let cut = [IDENTITY, SVID, behind];
        assert_partial(&cut, (16, 16), (0, 0), &[IDENTITY, END]);
    }
    let unknown = [IDENTITY, SVID, UNKNOWN];
    assert_partial(&unknown, (15, 16), (0, 0), &[IDENTITY, END]);
    for behind in [END, OTHER_SVID, SVID, IDENTITY] {
        let out_of_order = [IDENTITY, SVID, behind, MODE, END];
        assert_partial(&out_of_order, (17, 16), (0, 0), &[IDENTITY, END]);
    }
}

#[test]
fn only_the_last_svid_is_left_out() {
    let full = listed(1..=71, 1);
    let records = [IDENTITY, &full, SVID];
    assert_partial(&records, (16, 584), (71, 71), &[IDENTITY, &full, END]);
    let records = [IDENTITY, SVID, MODE, OTHER_SVID, END];
    assert_partial(&records, (17, 24), (1, 1), &[&CASE_L]);
}

#[test]
fn an_svid_that_is_cut_or_wrong_itself_is_not_kept() {
    for (svid, refusal) in [(&SVID[..1], 16), (&SVID[..2], 16), (SVID_ZERO, 17)] {
        let first = [IDENTITY, svid];
        assert_partial(&first, (refusal, 13), (0, 0), &[IDENTITY, END]);
        let second = [IDENTITY, SVID, MODE, svid];
        assert_partial(&second, (refusal, 21), (1, 1), &[&CASE_L]);
    }
}

#[test]
fn nothing_behind_the_fault_is_read_on() {
    let good = [OTHER_SVID, MODE, OTHER_MODE, END].concat();
    let unknown = [IDENTITY, SVID, MODE, UNKNOWN, &good];
    assert_partial(&unknown, (15, 21), (1, 1), &[&CASE_L]);
    let bare = [IDENTITY, SVID, UNKNOWN, MODE, &good];
    assert_partial(&bare, (15, 16), (0, 0), &[IDENTITY, END]);
    let again = [IDENTITY, SVID, MODE, SVID, MODE, &good];
    assert_partial(&again, (17, 21), (1, 1), &[&CASE_L]);
    let behind_end = [IDENTITY, END, &good];
    assert_partial(&behind_end, (18, 14), (0, 0), &[IDENTITY, END]);
}

#[test]
fn no_whole_identity_at_the_front_is_19_whatever_the_room() {
    assert_no_identity(&[]);
    for length in 1..13 {
        assert_no_identity(&IDENTITY[..length]);
    }
    for length in 1..25 {
        assert_no_identity(&long_identity()[..length]);
    }
    for first in [UNKNOWN, END, SVID, MODE, &SVID[..2], &MODE[..1]] {
        assert_no_identity(first);
    }
    for first in [UNKNOWN, END, SVID, MODE] {
        assert_no_identity(&[first, &CASE_L].concat());
    }
    for kind in 0..=u8::MAX {
        let (answer, _) = mended_in(ROOM, &[&[kind], &[0; 24][..]].concat());
        assert_eq!(answer == Err(19), !(3..=6).contains(&kind), "{kind:02X}");
    }
}

#[test]
fn a_buffer_is_11_if_it_is_shorter_than_what_comes_out() {
    let longest = [&long_identity()[..], &listed(1..=72, 6)].concat();
    let exact = [
        (CASE_L.to_vec(), 22),
        ([IDENTITY, END].concat(), 14),
        ([&longest, END].concat(), 2402),
        (longest, 2402),
        (IDENTITY.to_vec(), 14),
        ([IDENTITY, SVID].concat(), 14),
        ([IDENTITY, SVID, MODE, &[0x20, 1, 2, 3]].concat(), 22),
        ([&CASE_L, UNKNOWN].concat(), 22),
        ([&CASE_L, &CASE_L[..]].concat(), 22),
    ];
    for (bytes, length) in exact {
        for room in [0, 1, length / 2, length - 1] {
            assert_eq!(mended_in(room, &bytes), (Err(11), Vec::new()));
        }
        for room in [length, length + 1, ROOM] {
            assert_eq!(mended_in(room, &bytes).1.len(), length);
        }
    }
}

#[test]
fn a_mended_file_may_be_one_byte_longer_than_the_damaged_one() {
    for bytes in [&CASE_L[..21], IDENTITY] {
        assert_eq!(mended_in(bytes.len(), bytes), (Err(11), Vec::new()));
        let (_, written) = mended_in(bytes.len() + 1, bytes);
        assert_eq!(written, [bytes, END].concat());
    }
    let by_one = files(6).filter(|(bytes, _)| match mended_in(ROOM, bytes) {
        (Ok(_), written) => {
            assert!(written.len() <= bytes.len() + 1);
            written.len() == bytes.len() + 1
        }
        (Err(_), _) => false,
    });
    assert!(by_one.count() > 300);
}

#[test]
fn a_buffer_of_2402_bytes_always_does() {
    for (bytes, _) in files(7) {
        let (answer, _) = mended_in(2402, &bytes);
        assert!(answer.is_ok() || answer == Err(19));
    }
}

#[test]
fn the_offset_is_that_of_the_fault_and_not_the_number_of_bytes_kept() {
    let offset_and_length = |records: &[&[u8]]| match mended(&records.concat()) {
        (Mended::Partial { fault, kept }, _) => (fault.offset, kept.length),
        (Mended::Sound(_), _) => panic!("the file is sound"),
    };
    let bare_svid = [IDENTITY, SVID];
    assert_eq!(offset_and_length(&bare_svid), (16, 13 + 1));
    let no_end = [IDENTITY, SVID, MODE];
    assert_eq!(offset_and_length(&no_end), (21, 21 + 1));
    let more = [IDENTITY, SVID, MODE, END, END];
    assert_eq!(offset_and_length(&more), (22, 22));
    let cut = [IDENTITY, SVID, MODE, &MODE[..3]];
    assert_eq!(offset_and_length(&cut), (21, 21 + 1));
}

#[test]
fn bytes_behind_the_end_are_a_fault_and_all_is_kept() {
    let zeros = [0; 512];
    for tail in [END, UNKNOWN, MODE, &MODE[..2], &CASE_L, &zeros] {
        assert_partial(&[&CASE_L, tail], (18, 22), (1, 1), &[&CASE_L]);
    }
}

/// A block of zeros where modes should follow is an end with bytes behind it.
#[test]
fn a_torn_block_of_zeros_is_partial() {
    let zeros = [0; 512];
    let torn = [IDENTITY, SVID, MODE, &zeros];
    assert_partial(&torn, (18, 22), (1, 1), &[&CASE_L]);
    let bare = [IDENTITY, SVID, &zeros];
    assert_partial(&bare, (17, 16), (0, 0), &[IDENTITY, END]);
}

#[test]
fn an_identity_again_or_a_mode_without_an_svid_keeps_the_identity_alone() {
    let identity_alone = [IDENTITY, END];
    for behind in [IDENTITY, &long_identity(), MODE] {
        let records = [IDENTITY, behind, SVID, MODE, END];
        assert_partial(&records, (17, 13), (0, 0), &identity_alone);
    }
}

#[test]
fn a_seventh_mode_leaves_six() {
    let six = [IDENTITY, &listed(1..=1, 6)].concat();
    for (length, refusal) in [(1, 16), (4, 16), (5, 17)] {
        let seventh = [&six, &OTHER_MODE[..length]];
        assert_partial(&seventh, (refusal, 46), (1, 6), &[&six, END]);
    }
}

#[test]
fn a_73rd_svid_leaves_72() {
    let full = [&long_identity()[..], &listed(1..=72, 6)].concat();
    for (length, refusal) in [(0, 16), (1, 16), (2, 16), (3, 17)] {
        let more = [&full, &SVID[..length]];
        assert_partial(&more, (refusal, 2401), (72, 432), &[&full, END]);
    }
    let full = [IDENTITY, &listed(1..=72, 1)].concat();
    let more = [&full, SVID, MODE, END];
    assert_partial(&more, (17, 589), (72, 72), &[&full, END]);
}

#[test]
fn svids_and_identity_objects_come_out_with_their_bytes_in_order() {
    let identity = [&[4][..], &(1..=16).collect::<Vec<u8>>()].concat();
    let svid = [0x10, 0x34, 0x12];
    let mode = [0x20, 0x78, 0x56, 0x34, 0x12];
    let begun = [&identity[..], &svid, &mode].concat();
    assert_partial(&[&begun], (16, 25), (1, 1), &[&begun, END]);
}

#[test]
fn only_a_sound_file_is_called_sound_and_the_fault_is_that_of_reading() {
    let (mut sound, mut partial) = (0, 0);
    for (bytes, fault) in files(8) {
        match mended_in(ROOM, &bytes).0 {
            Ok(Mended::Sound(_)) => {
                sound += 1;
                assert_eq!(fault, None);
            }
            Ok(Mended::Partial { fault: named, .. }) => {
                partial += 1;
                assert_eq!(fault, Some(named));
            }
            Err(refusal) => {
                assert_eq!(refusal, 19);
                assert_eq!(fault.map(|fault| fault.offset), Some(0));
            }
        }
    }
    assert!(sound > 1000 && partial > 1000);
}

#[test]
fn what_comes_out_is_sound_and_mending_it_again_changes_nothing() {
    for (bytes, fault) in files(9) {
        let (Ok(answer), written) = mended_in(ROOM, &bytes) else {
            continue;
        };
        assert_eq!(fault.is_none(), written == bytes);
        assert!(read(&written, &mut [0; 432]).is_ok());
        let again = Mended::Sound(answer.kept());
        assert_eq!(mended(&written), (again, written));
    }
}

#[test]
fn the_counts_are_those_of_the_file_that_comes_out() {
    for (bytes, _) in files(10) {
        let (Ok(answer), written) = mended_in(ROOM, &bytes) else {
            continue;
        };
        let mut lent = Lent::filled_with(UNWRITTEN, 432);
        let Sizes { svids, modes, .. } = lent.read(&written, 432).unwrap();
        assert_eq!(answer.kept(), kept(svids, modes, written.len()));
    }
}

/// What is kept, found in another way: the bytes before the fault, without a bare SVID, and an end.
#[test]
fn what_is_kept_stands_before_the_fault() {
    let mut bare_svids = 0;
    for (bytes, fault) in files(11) {
        let (Ok(_), written) = mended_in(ROOM, &bytes) else {
            continue;
        };
        let offset = fault.map_or(bytes.len(), |fault| fault.offset);
        let before = match fault {
            None | Some(Refused { refusal: 18, .. }) => &bytes[..offset - 1],
            Some(_) => &bytes[..offset],
        };
        let with_end = [before, END].concat();
        if read(&with_end, &mut [0; 432]).is_ok() {
            assert_eq!(written, with_end);
        } else {
            bare_svids += 1;
            assert_eq!(written, [&before[..offset - 3], END].concat());
        }
    }
    assert!(bare_svids > 500);
}

#[test]
fn a_cut_file_mends_to_a_beginning_of_the_old_catalogue() {
    let middling = [IDENTITY, &listed(1..=13, 3), END].concat();
    let other = [&long_identity()[..], &listed(7..=9, 6), SVID, MODE, END].concat();
    let longest = [&long_identity()[..], &listed(1..=72, 6), END].concat();
    for bytes in [&CASE_L[..], &middling, &other, &longest] {
        let (old, old_run) = catalogue(bytes);
        let identity_bytes = 1 + 4 * old.identity.len();
        for length in 0..bytes.len() {
            if length < identity_bytes {
                assert_no_identity(&bytes[..length]);
                continue;
            }
            let (answer, written) = mended(&bytes[..length]);
            assert!(matches!(answer, Mended::Partial { fault, .. } if fault.refusal == 16));
            let (new, run) = catalogue(&written);
            assert_beginning(&new, &run, &old, &old_run);
        }
    }
}

/// The same identity, the first of the SVIDs, and of the last of these the first modes.
fn assert_beginning(new: &Catalogue, run: &[u32], old: &Catalogue, old_run: &[u32]) {
    assert_eq!(new.identity, old.identity);
    assert!(old.svids.starts_with(&new.svids));
    let Some((&last, before)) = new.mode_counts.split_last() else {
        return;
    };
    assert!(old.mode_counts.starts_with(before));
    assert!((1..=old.mode_counts[before.len()]).contains(&last));
    for (place, &count) in new.mode_counts.iter().enumerate() {
        let words = 6 * place..6 * place + count;
        assert_eq!(run[words.clone()], old_run[words]);
    }
}

/// Any damage but a cut may leave a sound file: of case L all bytes but the kinds of its SVID, its
/// mode and its end can be others.
#[test]
fn a_changed_file_may_be_sound_and_is_then_called_so() {
    let mut fixed = Vec::new();
    for place in 0..CASE_L.len() {
        let others = (0..=u8::MAX).filter(|&value| {
            let mut changed = CASE_L;
            changed[place] = value;
            value != CASE_L[place] && matches!(mended_in(ROOM, &changed).0, Ok(Mended::Sound(_)))
        });
        if others.count() == 0 {
            fixed.push(place);
        }
    }
    assert_eq!(fixed, [13, 16, 21]);
    let mut longer_identity = CASE_L;
    longer_identity[0] = 5;
    assert_sound(&longer_identity, 0, 0);
}

/// Up to where the fault is seen: the unknown kind, the record that is out of order, the first byte
/// behind the end. Behind a cut record there is nothing.
fn up_to_the_fault(bytes: &[u8], fault: Refused) -> Option<&[u8]> {
    match fault.refusal {
        15 | 18 => Some(&bytes[..=fault.offset]),
        17 => {
            let (_, behind) = Record::at(bytes, fault.offset).unwrap().unwrap();
            Some(&bytes[..behind])
        }
        _ => None,
    }
}

#[test]
fn changing_what_lies_behind_the_fault_changes_nothing() {
    let mut changed = 0;
    for (bytes, fault) in files(12) {
        let Some(front) = fault.and_then(|fault| up_to_the_fault(&bytes, fault)) else {
            continue;
        };
        changed += 1;
        let expected = mended_in(ROOM, &bytes);
        for tail in [&[][..], END, UNKNOWN, MODE, SVID, &CASE_L, &[0xFF; 30]] {
            assert_eq!(mended_in(ROOM, &[front, tail].concat()), expected);
        }
    }
    assert!(changed > 5000);
}
