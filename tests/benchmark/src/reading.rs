//! Reading messages: the versions' answers to recorded inputs, then their speed.

use crate::proved::{ALL_VERSIONS, LIBRARIES};
use crate::rounds;
use second::edition::Edition;
use second::messages::{
    flip_reserved, has_reserved, read, write, ACK, ATTENTION, BUSY, ENTER, EXIT, IDENTITY,
    LAST_MODE_POSITION, MODES, NAK, OBJECT_BYTES, PD_SID, REQ, SVIDS,
};
use second::random::Random;
use second::refusals::{
    ACCEPTED, NOT_STRUCTURED, NOT_WHOLE_OBJECTS, UNREAD_MAJOR, WITHDRAWN, WRONG_SHAPE,
};
use std::hint::black_box;
use std::ops::Range;

const SEED: u64 = 0x5EED_0000_0000_0002;
const INPUTS: usize = 100_000;
/// One input in so many is damaged.
const DAMAGED_ONE_IN: usize = 10;
/// One in so many has bit 5, which means nothing, set.
const RESERVED_ONE_IN: usize = 50;
/// The refusals of a damaged message.
const FAULTS: [u8; 4] = [NOT_WHOLE_OBJECTS, NOT_STRUCTURED, UNREAD_MAJOR, WRONG_SHAPE];

/// Edition, SVID, command, type, position, number of objects after the header, then their six words.
pub type Answer = [u32; 12];
/// Leaves the answer alone on a refusal.
pub type Reader = fn(&[u8], &mut Answer) -> u8;
/// What an answer holds before the call.
const UNTOUCHED: Answer = [0xA5A5_A5A5; 12];

/// Bits of the header's second byte.
const STRUCTURED: u8 = 0x80;
const MAJOR_2: u8 = 0x40;
/// The bytes of the header that hold the SVID.
const SVID: Range<usize> = 2..4;

/// Command, type, and the least and the most objects after the header.
const MESSAGES: [(u8, u8, usize, usize); 16] = [
    (IDENTITY, REQ, 0, 0),
    (IDENTITY, ACK, 3, 6),
    (IDENTITY, BUSY, 0, 0),
    (SVIDS, REQ, 0, 0),
    (SVIDS, ACK, 1, 6),
    (SVIDS, NAK, 0, 0),
    (MODES, REQ, 0, 0),
    (MODES, ACK, 1, 6),
    (MODES, BUSY, 0, 0),
    (ENTER, REQ, 0, 1),
    (ENTER, ACK, 0, 0),
    (ENTER, NAK, 0, 0),
    (EXIT, REQ, 0, 0),
    (EXIT, ACK, 0, 0),
    (EXIT, NAK, 0, 0),
    (ATTENTION, REQ, 0, 1),
];

#[inline(never)]
fn rust_read(bytes: &[u8], into: &mut Answer) -> u8 {
    let message = match read(bytes) {
        Ok(message) => message,
        Err(refusal) => return refusal,
    };
    into[0] = message.edition.number().into();
    into[1] = message.svid.into();
    into[2] = message.command.into();
    into[3] = message.kind.into();
    into[4] = message.position.into();
    into[5] = message.objects.as_slice().len() as u32;
    into[6..].copy_from_slice(message.objects.words());
    ACCEPTED
}

/// Messages one after another, with the start and length of each.
struct Inputs {
    bytes: Vec<u8>,
    places: Vec<(usize, usize)>,
}

impl Inputs {
    fn record() -> Self {
        let mut random = Random::from_seed(SEED);
        let mut bytes = Vec::new();
        let mut places = Vec::new();
        for _ in 0..INPUTS {
            let mut message = drawn_message(&mut random);
            if random.below(DAMAGED_ONE_IN) == 0 {
                damage(&mut message, &mut random);
            }
            if random.below(RESERVED_ONE_IN) == 0 {
                flip_reserved(&mut message);
            }
            places.push((bytes.len(), message.len()));
            bytes.extend(message);
        }
        Inputs { bytes, places }
    }

    fn messages(&self) -> impl Iterator<Item = &[u8]> {
        self.places
            .iter()
            .map(|&(start, length)| &self.bytes[start..start + length])
    }
}

fn drawn_message(random: &mut Random) -> Vec<u8> {
    let (command, kind, least, most) = random.one_of(&MESSAGES);
    let svid = match command {
        IDENTITY | SVIDS => PD_SID,
        _ => random.svid().max(1),
    };
    let position = match command {
        ENTER | EXIT | ATTENTION => 1 + random.byte() % LAST_MODE_POSITION,
        _ => 0,
    };
    let count = least + random.below(most - least + 1);
    let objects: Vec<u32> = (0..count).map(|_| random.word()).collect();
    let edition = random.one_of(&Edition::ALL).number();
    let mut message = vec![0; (1 + count) * OBJECT_BYTES];
    let answer = write(
        svid,
        command,
        kind,
        position,
        edition,
        &objects,
        &mut message,
    );
    assert_eq!(answer, ACCEPTED);
    message
}

/// Gives the message one of the faults behind the refusals 1, 2, 3 and 5.
fn damage(message: &mut Vec<u8>, random: &mut Random) {
    match random.one_of(&FAULTS) {
        NOT_WHOLE_OBJECTS => message.truncate(message.len() - 1),
        NOT_STRUCTURED => message[1] &= !STRUCTURED,
        UNREAD_MAJOR => message[1] |= MAJOR_2,
        _ => message[SVID].fill(0),
    }
}

/// How often 0 to 5 were answered.
type Counts = [usize; 6];

/// Counts the answers, and panics at the first input that the versions answer differently.
fn compare_answers(inputs: &Inputs) -> Counts {
    let mut counts = Counts::default();
    for message in inputs.messages() {
        let mut rust = UNTOUCHED;
        let rust_number = rust_read(message, &mut rust);
        for library in LIBRARIES {
            let mut proved = UNTOUCHED;
            let proved_number = (library.read)(message, &mut proved);
            assert_eq!(
                (proved_number, proved),
                (rust_number, rust),
                "{} (left) and Rust (right) differ on {message:02X?}",
                library.name
            );
        }
        counts[usize::from(rust_number)] += 1;
    }
    counts
}

/// Not inlined: all versions run through the same loop.
#[inline(never)]
fn read_all(reader: Reader, inputs: &Inputs) {
    let reader = black_box(reader);
    let mut answer = UNTOUCHED;
    for message in inputs.messages() {
        black_box(reader(message, &mut answer));
        black_box(&answer);
    }
}

pub fn measure() {
    let inputs = Inputs::record();
    let counts = compare_answers(&inputs);
    println!("reading {INPUTS} messages, {ALL_VERSIONS} answer alike");
    assert_eq!(counts[usize::from(WITHDRAWN)], 0);
    println!("accepted: {}", counts[usize::from(ACCEPTED)]);
    let messages = inputs.messages();
    let reserved = messages.filter(|message| has_reserved(message) && read(message).is_ok());
    println!("of these with bit 5: {}", reserved.count());
    for number in FAULTS {
        println!("refused {number}: {}", counts[usize::from(number)]);
    }
    rounds::compare(
        INPUTS,
        |library| read_all(library.read, &inputs),
        || read_all(rust_read, &inputs),
    );
}
