//! Makes the vectors: every row of 01's table and its edges, then damage of every kind.

use super::Vector;
use crate::edition::Edition;
use crate::header::{samples, Header};
use crate::messages::{
    ACK, BUSY, EXIT, IDENTITY, LAST_COMMAND, LAST_KIND, LAST_POSITION, MODES, MOST_OBJECTS, NAK,
    OBJECT_BYTES, PD_SID, REQ, SVIDS,
};
use crate::random::Random;

const KINDS: [u8; 4] = [REQ, ACK, NAK, BUSY];
const EDGE_SVIDS: [u16; 5] = [0x0000, 0x0001, PD_SID, 0xFF01, 0xFFFF];
/// Commands with a row of their own, and the edges of the row that the others share.
const EDGE_COMMANDS: [u8; 9] = [0, 1, 2, 3, 4, 5, 6, 7, LAST_COMMAND];

/// Every length up to one object past the longest message, and these.
const LAST_LENGTH: usize = 32;
const LONG_LENGTHS: [usize; 8] = [33, 36, 60, 64, 128, 252, 254, 255];
const LAST_CLOSE_ROOM: u8 = 40;
const LARGE_ROOMS: [u8; 4] = [64, 127, 128, 255];
/// Numbers of objects after the header; with 63 the length comes round to 0 in a byte, with 255 the
/// number of objects does.
const LARGE_COUNTS: [usize; 7] = [8, 9, 15, 16, 63, 64, 255];
/// Numbers close to those of the editions, and the ends of a byte.
pub const NO_EDITIONS: [u8; 7] = [0, 1, 9, 11, 19, 22, u8::MAX];
const DRAWN_OF_EACH: usize = 90;

struct Generator {
    random: Random,
    vectors: Vec<Vector>,
}

/// All vectors of a seed, in the order of the stream.
pub fn generate(seed: u64) -> Vec<Vector> {
    let mut generator = Generator {
        random: Random::from_seed(seed),
        vectors: Vec::new(),
    };
    for command in 0..=LAST_COMMAND {
        for kind in KINDS {
            generator.row(command, kind);
        }
    }
    generator.lengths();
    generator.faults();
    generator.flipped_bits();
    generator.fields_too_large();
    generator.no_editions();
    generator.too_many_objects();
    generator.rooms();
    generator.drawn();
    generator.vectors
}

impl Generator {
    fn object(&mut self) -> u32 {
        let drawn = self.random.word();
        self.random
            .one_of(&[0, u32::MAX, drawn, drawn, drawn, drawn])
    }

    fn objects(&mut self, count: usize) -> Vec<u32> {
        (0..count).map(|_| self.object()).collect()
    }

    fn bytes(&mut self, header: u32, after_header: usize) -> Vec<u8> {
        let mut bytes = header.to_le_bytes().to_vec();
        for object in self.objects(after_header) {
            bytes.extend(object.to_le_bytes());
        }
        bytes
    }

    fn read_bytes(&mut self, bytes: Vec<u8>) {
        self.vectors.push(Vector::Read { bytes });
    }

    fn read(&mut self, header: u32, after_header: usize) {
        let bytes = self.bytes(header, after_header);
        self.read_bytes(bytes);
    }

    /// A header to write at a drawn edition.
    fn write(&mut self, header: Header, after_header: usize, room: u8) {
        let edition = self.random.one_of(&Edition::ALL);
        self.write_at(edition.number(), header, after_header, room);
    }

    fn write_at(&mut self, edition: u8, header: Header, after_header: usize, room: u8) {
        let objects = self.objects(after_header);
        self.vectors.push(Vector::Write {
            svid: header.svid,
            command: header.command,
            kind: header.kind,
            position: header.position,
            edition,
            room,
            objects,
        });
    }

    fn row(&mut self, command: u8, kind: u8) {
        for after_header in 0..MOST_OBJECTS {
            self.reads_of_row(command, kind, after_header);
            self.writes_of_row(command, kind, after_header);
        }
        self.writes_past_row(Header::usual(command, kind));
        self.editions_of_row(Header::usual(command, kind));
    }

    fn reads_of_row(&mut self, command: u8, kind: u8, after_header: usize) {
        for header in self.headers_of_row(command, kind) {
            let header = header.of_another_maker(&mut self.random);
            self.read(header.word(), after_header);
        }
        let header = Header::usual(command, kind).of_another_maker(&mut self.random);
        self.read(header.with_reserved().word(), after_header);
    }

    /// The usual header with a byte too few, just enough and a byte too many. The other headers
    /// with no object and with three, as every row takes one of the two.
    fn writes_of_row(&mut self, command: u8, kind: u8, after_header: usize) {
        let needed = needed_room(after_header);
        for room in [needed - 1, needed, needed + 1] {
            self.write(Header::usual(command, kind), after_header, room);
        }
        if EDGE_COMMANDS.contains(&command) && matches!(after_header, 0 | 3) {
            for header in self.headers_of_row(command, kind) {
                self.write(header, after_header, needed);
            }
        }
    }

    /// An object too many, and the position after the last.
    fn writes_past_row(&mut self, usual: Header) {
        self.write(usual, MOST_OBJECTS, u8::MAX);
        let position = LAST_POSITION + 1;
        self.write(Header { position, ..usual }, 0, needed_room(0));
    }

    /// A number of objects that the row takes, if it takes any, read and written at each edition.
    fn editions_of_row(&mut self, usual: Header) {
        let after_header = match (usual.command, usual.kind) {
            (IDENTITY | SVIDS | MODES, ACK) => 3,
            _ => 0,
        };
        for edition in Edition::ALL {
            let header = usual.read_as(edition, &mut self.random);
            self.read(header.word(), after_header);
            let room = needed_room(after_header);
            self.write_at(edition.number(), usual, after_header, room);
        }
    }

    /// Headers with the SVIDs and positions to try in a row, the edges among them.
    fn headers_of_row(&mut self, command: u8, kind: u8) -> Vec<Header> {
        let header = |svid, position| Header::ours(svid, command, kind, position);
        let drawn = header(self.random.svid(), self.random.byte() & LAST_POSITION);
        if !EDGE_COMMANDS.contains(&command) {
            return vec![header(0x0000, 0), header(0xFFFF, LAST_POSITION), drawn];
        }
        let usual = Header::usual(command, kind);
        let svids = EDGE_SVIDS.map(|svid| header(svid, usual.position));
        let positions = (0..=LAST_POSITION).map(|position| header(usual.svid, position));
        svids.into_iter().chain(positions).chain([drawn]).collect()
    }

    fn lengths(&mut self) {
        let list = Header::usual(SVIDS, ACK).word();
        let other = Header::usual(0, REQ).word();
        for length in (0..=LAST_LENGTH).chain(LONG_LENGTHS) {
            for header in [list, other, 0, u32::MAX, self.random.word()] {
                let mut bytes = self.bytes(header, length / OBJECT_BYTES);
                bytes.truncate(length);
                self.read_bytes(bytes);
            }
        }
    }

    /// Every mix of the faults behind 1, 2, 3 and 5, so that their order shows, with bit 5 clear or
    /// set.
    fn faults(&mut self) {
        for (sample, after_header) in samples() {
            for header in sample.with_faults() {
                self.read(header.word(), after_header);
                if header.minor == 0 {
                    let mut bytes = self.bytes(header.word(), after_header);
                    bytes.pop();
                    self.read_bytes(bytes);
                }
            }
        }
    }

    fn flipped_bits(&mut self) {
        for (sample, after_header) in samples() {
            for bit in 0..u32::BITS {
                self.read(sample.word() ^ 1 << bit, after_header);
            }
        }
    }

    /// Each would be taken if it were cut to the width of its field.
    fn fields_too_large(&mut self) {
        for command in LAST_COMMAND + 1..=u8::MAX {
            let usual = Header::usual(command & LAST_COMMAND, REQ);
            self.write(Header { command, ..usual }, 0, needed_room(0));
        }
        for kind in LAST_KIND + 1..=u8::MAX {
            self.write(Header::usual(EXIT, kind), 0, needed_room(0));
        }
        for position in LAST_POSITION + 1..=u8::MAX {
            self.write(Header::ours(PD_SID, 0, REQ, position), 0, needed_room(0));
        }
    }

    /// Every number that is no edition, with a request; some of them with a sample of each row, also
    /// without room.
    fn no_editions(&mut self) {
        let numbers = (0..=u8::MAX).filter(|&number| Edition::of_number(number).is_none());
        for number in numbers {
            self.write_at(number, Header::usual(IDENTITY, REQ), 0, needed_room(0));
        }
        for number in NO_EDITIONS {
            for (sample, after_header) in samples() {
                let room = self.random.one_of(&[0, needed_room(after_header)]);
                self.write_at(number, sample, after_header, room);
            }
        }
    }

    fn too_many_objects(&mut self) {
        for after_header in LARGE_COUNTS {
            self.write(Header::usual(IDENTITY, ACK), after_header, u8::MAX);
            self.write(Header::usual(0, REQ), after_header, u8::MAX);
        }
    }

    /// A lone SVIDs ACK has a wrong shape, which is refused before a short buffer is.
    fn rooms(&mut self) {
        for room in (0..=LAST_CLOSE_ROOM).chain(LARGE_ROOMS) {
            self.write(Header::usual(SVIDS, ACK), 0, room);
            for after_header in 0..MOST_OBJECTS {
                self.write(Header::usual(LAST_COMMAND, REQ), after_header, room);
            }
        }
    }

    /// Bytes with nothing sound in them, then fields that fit the header, to read and to write.
    fn drawn(&mut self) {
        for _ in 0..DRAWN_OF_EACH {
            let length = self.random.below(LAST_LENGTH + 1);
            let bytes = (0..length).map(|_| self.random.byte()).collect();
            self.read_bytes(bytes);

            let header = self.drawn_header();
            let after_header = self.random.below(MOST_OBJECTS);
            self.read(header.word(), after_header);

            let header = self.drawn_header();
            let after_header = self.random.below(MOST_OBJECTS);
            let room = self.random.byte() % (LAST_CLOSE_ROOM + 1);
            let edition = self.drawn_edition();
            self.write_at(edition, header, after_header, room);
        }
    }

    fn drawn_header(&mut self) -> Header {
        let header = Header::ours(
            self.random.svid(),
            self.random.byte() & LAST_COMMAND,
            self.random.byte() & LAST_KIND,
            self.random.byte() & LAST_POSITION,
        );
        header.of_any_version(&mut self.random)
    }

    /// The number of an edition, or at times any.
    fn drawn_edition(&mut self) -> u8 {
        match self.random.below(4) {
            0 => self.random.byte(),
            _ => self.random.one_of(&Edition::ALL).number(),
        }
    }
}

/// The bytes that a header and so many objects after it take.
fn needed_room(after_header: usize) -> u8 {
    u8::try_from((1 + after_header) * OBJECT_BYTES).expect("at most 63 objects")
}
