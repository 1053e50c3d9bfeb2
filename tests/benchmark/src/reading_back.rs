//! Reading a catalogue's bytes back: the versions' answers to recorded files, then their speed by
//! sort of file.

use crate::plain_reader::{self, Lent};
use crate::proved::{ALL_VERSIONS, LIBRARIES};
use crate::rounds;
use second::catalogue::{Catalogue, MOST_CATALOGUE_BYTES, MOST_MODES, RUN_WORDS};
use second::messages::MOST_AFTER_HEADER;
use second::pages::MOST_SVIDS;
use second::random::Random;
use second::record::{MODE_BYTES, MOST_IDENTITY_BYTES, SVID_BYTES};
use second::refusals::{ACCEPTED, BYTES_AFTER_END};
use std::hint::black_box;

const SEED: u64 = 0x5EED_0000_0000_0004;
const FULL_FILES: usize = 400;
const SMALL_FILES: usize = 20_000;
/// What most docks list.
const SMALL_SVIDS: usize = 3;
const UNKNOWN_KIND: u8 = 0xFF;
/// The refusal number in a result.
const NUMBER: u32 = 0xFF;

/// What stands in each lent number before the call.
const UNTOUCHED: Lent = Lent {
    svids: [0xA5A5; MOST_SVIDS],
    modes: [0xA5; MOST_SVIDS],
    identity: [0xA5A5_A5A5; MOST_AFTER_HEADER],
    run: [0xA5A5_A5A5; RUN_WORDS],
    sizes: [0xA5A5; 3],
};

/// Gives the refusal number in the low eight bits and the offset above them.
pub type Reader = fn(&[u8], &mut Lent) -> u32;

/// A sound file of drawn numbers.
fn drawn_file(svids: usize, modes: usize, random: &mut Random) -> Vec<u8> {
    let mut catalogue = Catalogue::of_identity(&random.objects(MOST_AFTER_HEADER));
    catalogue.svids = random.different_svids(svids);
    let mut run = [0; RUN_WORDS];
    for _ in 0..svids {
        catalogue.store_modes(&random.objects(modes), &mut run);
    }
    let mut bytes = vec![0; MOST_CATALOGUE_BYTES];
    let length = catalogue.write(&run, &mut bytes).expect("it has room");
    bytes.truncate(length);
    bytes
}

fn full_file(random: &mut Random) -> Vec<u8> {
    drawn_file(MOST_SVIDS, MOST_MODES, random)
}

fn small_file(random: &mut Random) -> Vec<u8> {
    drawn_file(SMALL_SVIDS, 1, random)
}

/// A full file with one of the faults behind the refusals 15 to 18, all but the last at a drawn
/// place.
fn damaged_file(random: &mut Random) -> Vec<u8> {
    let mut bytes = full_file(random);
    let record = svid_record(1 + random.below(MOST_SVIDS - 1));
    match random.below(4) {
        0 => bytes[record] = UNKNOWN_KIND,
        1 => bytes.truncate(random.below(bytes.len())),
        2 => bytes.copy_within(svid_record(0)..svid_record(0) + SVID_BYTES, record),
        _ => bytes.push(random.byte()),
    }
    bytes
}

/// Where the record of an SVID, counted from 0, begins in a full file.
fn svid_record(place: usize) -> usize {
    MOST_IDENTITY_BYTES + place * (SVID_BYTES + MOST_MODES * MODE_BYTES)
}

/// How often each number was answered.
type Counts = [usize; BYTES_AFTER_END as usize + 1];

/// Counts the answers, and panics at the first file that the versions answer differently.
fn compare_answers(files: &[Vec<u8>]) -> Counts {
    let mut counts = Counts::default();
    for bytes in files {
        let mut plain = UNTOUCHED;
        let plain_result = plain_reader::read(bytes, &mut plain);
        for library in LIBRARIES {
            let mut proved = UNTOUCHED;
            let proved_result = (library.read_back)(bytes, &mut proved);
            assert_eq!(
                (proved_result, &proved),
                (plain_result, &plain),
                "{} (left) and Rust (right) differ on {bytes:02X?}",
                library.name
            );
        }
        counts[(plain_result & NUMBER) as usize] += 1;
    }
    counts
}

/// Not inlined: all versions run through the same loop.
#[inline(never)]
fn read_all(reader: Reader, files: &[Vec<u8>]) {
    let reader = black_box(reader);
    let mut lent = UNTOUCHED;
    for bytes in files {
        black_box(reader(bytes, &mut lent));
        black_box(&lent);
    }
}

fn measure_sort(name: &str, files: &[Vec<u8>]) {
    let counts = compare_answers(files);
    let bytes: usize = files.iter().map(Vec::len).sum();
    println!(
        "\n{name}: reading back {} files of {} bytes on average, {ALL_VERSIONS} answer alike",
        files.len(),
        bytes / files.len()
    );
    println!("accepted: {}", counts[usize::from(ACCEPTED)]);
    for (number, count) in counts.iter().enumerate().skip(1) {
        if *count > 0 {
            println!("refused {number}: {count}");
        }
    }
    rounds::compare(
        files.len(),
        |library| read_all(library.read_back, files),
        || read_all(plain_reader::read, files),
    );
}

pub fn measure() {
    let mut random = Random::from_seed(SEED);
    let mut drawn = |draw: fn(&mut Random) -> Vec<u8>, count: usize| -> Vec<Vec<u8>> {
        (0..count).map(|_| draw(&mut random)).collect()
    };
    let full = drawn(full_file, FULL_FILES);
    let small = drawn(small_file, SMALL_FILES);
    let damaged = drawn(damaged_file, FULL_FILES);
    assert!(full.iter().all(|bytes| bytes.len() == MOST_CATALOGUE_BYTES));
    measure_sort("full", &full);
    measure_sort("small", &small);
    measure_sort("damaged", &damaged);
}
