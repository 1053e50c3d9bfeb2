//! The stream of catalogue files and its answers, held against lines written by hand.

use second::catalogue_files::answers::print_answers;
use second::catalogue_files::generator::{generate, CASE_L};
use second::catalogue_files::tally::Tally;
use second::catalogue_files::{Asked, File};

/// Of the four lent parts, when no byte of them is written.
const UNWRITTEN: &str = "F3D770A5 8669B105 85B68265 5F29F345";
/// The same after case L's catalogue, with that mode at the front of the run.
const CASE_L_READ: &str = "9BD10D23 237EE6E1 FF6DF644 0FDC1314";
/// Of the second buffer, when no byte of it is written, and with case L's catalogue in it.
const UNMENDED: &str = "5132EDAD";
const CASE_L_MENDED: &str = "7DC6A537";
const NOTHING: [u8; 5] = [2, 0, 0, 0, 0];

fn answers(mut stream: &[u8]) -> String {
    let mut output = Vec::new();
    print_answers(&mut stream, &mut output).unwrap();
    String::from_utf8(output).unwrap()
}

/// With room enough for any mended file.
fn catalogue(words: u16, svid: u16, bytes: &[u8]) -> Vec<u8> {
    catalogue_in(words, svid, 2402, bytes)
}

fn catalogue_in(words: u16, svid: u16, room: u16, bytes: &[u8]) -> Vec<u8> {
    let numbers = [words, svid, room, bytes.len() as u16].map(u16::to_le_bytes);
    [&[1], &numbers.concat()[..], bytes].concat()
}

fn record(offset: u16, bytes: &[u8]) -> Vec<u8> {
    let [offset, length] = [offset, bytes.len() as u16].map(u16::to_le_bytes);
    [&[2], &offset[..], &length, bytes].concat()
}

fn fnv(bytes: impl IntoIterator<Item = u8>) -> String {
    let digest = bytes.into_iter().fold(0x811C_9DC5, |digest, byte| {
        (digest ^ u32::from(byte)).wrapping_mul(0x0100_0193)
    });
    format!("{digest:08X}")
}

#[test]
fn the_digests_are_those_of_the_four_lent_parts() {
    let unwritten = [6 * 4, 72 * 2, 72, 440 * 4].map(|length| fnv(vec![0xEE; length]));
    assert_eq!(unwritten.join(" "), UNWRITTEN);
    let identity = CASE_L[1..13].iter().copied().chain([0; 12]);
    let svids = [0x01, 0xFF].into_iter().chain([0; 142]);
    let counts = [1].into_iter().chain([0; 71]);
    let run = [0x05, 0x04, 0, 0].into_iter().chain([0xEE; 439 * 4]);
    let written = [fnv(identity), fnv(svids), fnv(counts), fnv(run)];
    assert_eq!(written.join(" "), CASE_L_READ);
}

#[test]
fn the_digest_of_mending_is_that_of_2410_bytes() {
    assert_eq!(fnv([0xEE; 2410]), UNMENDED);
    let written = CASE_L.into_iter().chain([0xEE; 2388]);
    assert_eq!(fnv(written), CASE_L_MENDED);
}

#[test]
fn every_form_of_line_about_a_catalogue_is_as_agreed() {
    let more = [&CASE_L[..], &[0]].concat();
    let stream = [
        catalogue(432, 0xFF01, &CASE_L),
        catalogue(440, 0x0000, &CASE_L),
        catalogue(431, 0xFF01, &CASE_L),
        catalogue(0, 0xFF01, &[]),
        catalogue(432, 0xFF01, &CASE_L[..20]),
        catalogue(432, 0xFF01, &[0x21]),
        catalogue(432, 0xFF01, &[0x00]),
        catalogue(432, 0xFF01, &more),
    ];
    let sound = format!("mend 0 sound 0 0 1 1 22 {CASE_L_MENDED}");
    let no_identity = format!("mend 19 - 0 0 0 0 0 {UNMENDED}");
    let identity_alone = fnv(CASE_L[..13].iter().copied().chain([0]).chain([0xEE; 2396]));
    let expected = format!(
        "file answer\n\
        1 read 0 22 3 1 1 {CASE_L_READ} stretch 0 16 2005040000 {sound}\n\
        2 read 0 22 3 1 1 {CASE_L_READ} stretch 12 0 - {sound}\n\
        3 read 11 0 0 0 0 {UNWRITTEN} stretch 0 16 2005040000 {sound}\n\
        4 read 11 0 0 0 0 {UNWRITTEN} stretch 16 0 - {no_identity}\n\
        5 read 16 16 0 0 0 {UNWRITTEN} stretch 16 16 - mend 0 partial 16 16 0 0 14 {identity_alone}\n\
        6 read 15 0 0 0 0 {UNWRITTEN} stretch 15 0 - {no_identity}\n\
        7 read 17 0 0 0 0 {UNWRITTEN} stretch 17 0 - {no_identity}\n\
        8 read 18 22 0 0 0 {UNWRITTEN} stretch 18 22 - mend 0 partial 18 22 1 1 22 {CASE_L_MENDED}\n\
        end 8 files\n"
    );
    assert_eq!(answers(&stream.concat()), expected);
}

#[test]
fn every_form_of_line_about_a_record_is_as_agreed() {
    let stream = [
        record(0, &CASE_L),
        record(13, &CASE_L),
        record(16, &CASE_L),
        record(21, &CASE_L),
        record(14, &CASE_L),
        record(16, &CASE_L[..20]),
        record(22, &CASE_L),
        record(23, &CASE_L),
    ];
    let expected = "file answer\n\
        1 record identity 3 13\n\
        2 record svid FF01 16\n\
        3 record mode 00000405 21\n\
        4 record end 22\n\
        5 record 15\n\
        6 record 16\n\
        7 record nothing\n\
        8 record 16\n\
        end 8 files\n";
    assert_eq!(answers(&stream.concat()), expected);
}

/// What the one file of the stream is answered behind `mend`.
fn mended(room: u16, bytes: &[u8]) -> String {
    let line = answers(&catalogue_in(0, 0, room, bytes));
    let line = line.lines().nth(1).unwrap();
    let (_, mended) = line.split_once(" mend ").unwrap();
    mended.to_string()
}

#[test]
fn a_file_is_mended_into_so_much_room() {
    let refused = format!("11 - 0 0 0 0 0 {UNMENDED}");
    for room in [0, 1, 13, 21] {
        assert_eq!(mended(room, &CASE_L), refused);
        assert_eq!(mended(room, &CASE_L[..21]), refused);
    }
    for room in [22, 23, 2402, 2409, 2410, 2411, u16::MAX] {
        let sound = format!("0 sound 0 0 1 1 22 {CASE_L_MENDED}");
        assert_eq!(mended(room, &CASE_L), sound);
        let partial = format!("0 partial 16 21 1 1 22 {CASE_L_MENDED}");
        assert_eq!(mended(room, &CASE_L[..21]), partial);
    }
    for room in [0, 1, 2402, u16::MAX] {
        let refused = format!("19 - 0 0 0 0 0 {UNMENDED}");
        assert_eq!(mended(room, &[]), refused);
        assert_eq!(mended(room, &CASE_L[..12]), refused);
    }
}

#[test]
fn more_than_440_words_count_as_440() {
    for words in [441, u16::MAX] {
        let expected = answers(&catalogue(440, 0xFF01, &CASE_L));
        assert_eq!(answers(&catalogue(words, 0xFF01, &CASE_L)), expected);
    }
}

#[test]
fn more_than_4096_bytes_count_as_4096() {
    let bytes = [0; 4096];
    for length in [4096u16, 4097, u16::MAX] {
        let [low, high] = length.to_le_bytes();
        let stream = [&[2, 0xFF, 0x0F, low, high], &bytes[..], &NOTHING].concat();
        let expected = "file answer\n1 record end 4096\n2 record nothing\nend 2 files\n";
        assert_eq!(answers(&stream), expected);
    }
}

#[test]
fn an_empty_stream_ends_at_once() {
    assert_eq!(answers(&[]), "file answer\nend 0 files\n");
}

#[test]
fn an_unknown_kind_stops_the_answers() {
    for kind in [0, 3, 255] {
        let stream = [&NOTHING[..], &[kind], &NOTHING].concat();
        let expected = "file answer\n1 record nothing\nunknown kind after 1 files\n";
        assert_eq!(answers(&stream), expected);
    }
}

#[test]
fn a_file_cut_anywhere_stops_the_answers() {
    for file in [catalogue(432, 0xFF01, &CASE_L), record(13, &CASE_L)] {
        for length in 1..file.len() {
            let stream = [&NOTHING, &file[..length]].concat();
            let expected = "file answer\n1 record nothing\ncut after 1 files\n";
            assert_eq!(answers(&stream), expected);
        }
    }
}

#[test]
fn the_input_counts_as_ended_after_a_million() {
    let printed = answers(&NOTHING.repeat(1_000_001));
    assert!(printed.ends_with("\n1000000 record nothing\nend 1000000 files\n"));
}

#[test]
fn generated_files_leave_nothing_out_and_come_back_from_bytes() {
    for seed in [0, 1, 2, u64::MAX] {
        let mut tally = Tally::default();
        let mut stream = Vec::new();
        let files = generate(seed);
        for file in &files {
            tally.count(file);
            file.put(&mut stream).unwrap();
        }
        assert_eq!(tally.missing(), Vec::<String>::new());
        let mut input = &stream[..];
        for file in &files {
            assert_eq!(File::take(&mut input).ok().as_ref(), Some(file));
        }
        assert!(input.is_empty());
    }
}

#[test]
fn runs_of_every_length_are_lent() {
    for words in [0, 1, 431, 432, 433, 439, 440, 441, u16::MAX] {
        let files = generate(1).into_iter();
        let lent = files.filter_map(|file| match file.asked {
            Asked::Catalogue { words, .. } => Some((words, file.bytes.is_empty())),
            Asked::Record { .. } => None,
        });
        let lent: Vec<_> = lent.filter(|&(other, _)| other == words).collect();
        assert!(lent.contains(&(words, true)) && lent.contains(&(words, false)));
    }
}

/// Rooms around the length that comes out and around the most that is lent, for a sound file, one
/// without its end, and no bytes.
#[test]
fn rooms_of_every_sort_are_lent() {
    let files = generate(1).into_iter();
    let lent: Vec<(u16, Vec<u8>)> = files
        .filter_map(|file| match file.asked {
            Asked::Catalogue { room, .. } => Some((room, file.bytes)),
            Asked::Record { .. } => None,
        })
        .collect();
    for room in [0, 1, 2401, 2402, 2403, 2409, 2410, 2411, u16::MAX] {
        assert!(lent.contains(&(room, Vec::new())));
        assert!(lent.contains(&(room, CASE_L.to_vec())));
        assert!(lent.contains(&(room, CASE_L[..21].to_vec())));
    }
    for room in [21, 22, 23] {
        assert!(lent.contains(&(room, CASE_L.to_vec())));
        assert!(lent.contains(&(room, CASE_L[..21].to_vec())));
    }
}

/// Twelve refusals, eight orders, five that meet, four identities, four lists, all modes, six
/// stretches and eight records; of mending four of sound files, sixteen of partial ones, six of 11
/// and six of 19.
#[test]
fn nothing_counted_is_everything_missing() {
    assert_eq!(Tally::default().missing().len(), 48 + 32);
}
