//! A laptop on a bench, with all that is lent to it, for the tests of the laptop end.

use second::laptop::{Answer, Laptop, Runs, Told};
use second::side::Side;

pub const IDENTITY_ACK: [u32; 4] = [0xFF00_A041, 0x1111_2222, 0, 0xFFFF_FFFF];
pub const UNWRITTEN_WORD: u32 = 0x5A5A_5A5A;
pub const RUN_WORDS: usize = 432;
const UNWRITTEN: u8 = 0x5A;
pub const ROOM: usize = 28;

#[derive(Clone, Debug, PartialEq, Eq)]
pub struct Bench {
    pub laptop: Laptop,
    pub held: Vec<u32>,
    pub candidate: Vec<u32>,
}

/// The header sent and what policy is told, or the refusal.
pub type Seen = Result<(Option<u32>, Option<Told>), u8>;

pub fn bytes(objects: &[u32]) -> Vec<u8> {
    objects.iter().flat_map(|word| word.to_le_bytes()).collect()
}

/// A page with these halves.
pub fn page_ack(halves: &[u16]) -> Vec<u32> {
    let objects = halves
        .chunks(2)
        .map(|pair| u32::from(pair[0]) << 16 | u32::from(pair[1]));
    [0xFF00_A042].into_iter().chain(objects).collect()
}

impl Bench {
    pub fn fresh() -> Self {
        Bench {
            laptop: Laptop::fresh(),
            held: vec![UNWRITTEN_WORD; RUN_WORDS],
            candidate: vec![UNWRITTEN_WORD; RUN_WORDS],
        }
    }

    /// A call with a buffer of that room. Nothing but the bytes to send may be written.
    pub fn called(
        &mut self,
        room: usize,
        call: impl FnOnce(&mut Laptop, &mut Runs, &mut [u8]) -> Answer,
    ) -> Seen {
        let mut out = vec![UNWRITTEN; room];
        let mut runs = Runs {
            held: &mut self.held,
            candidate: &mut self.candidate,
        };
        let answer = call(&mut self.laptop, &mut runs, &mut out);
        let length = answer.map_or(0, |accepted| accepted.length);
        assert!(out[length..].iter().all(|&byte| byte == UNWRITTEN));
        let sent = (length > 0).then(|| u32::from_le_bytes(out[..length].try_into().unwrap()));
        answer.map(|accepted| (sent, accepted.told))
    }

    pub fn message(&mut self, objects: &[u32]) -> Seen {
        let bytes = bytes(objects);
        self.called(ROOM, |laptop, runs, _| {
            laptop.message(Side::Partner, &bytes, runs)
        })
    }

    pub fn next(&mut self) -> Seen {
        self.called(ROOM, |laptop, runs, out| {
            laptop.next(Side::Partner, runs, out)
        })
    }

    /// The next request, which must have this header, and its answer.
    pub fn exchange(&mut self, header: u32, answer: &[u32]) -> Seen {
        assert_eq!(self.next(), Ok((Some(header), None)));
        self.message(answer)
    }

    pub fn page(&mut self, halves: &[u16]) -> Seen {
        self.exchange(0xFF00_A002, &page_ack(halves))
    }

    /// Opens a list.
    pub fn open() -> Self {
        let mut bench = Bench::fresh();
        bench.reopen();
        bench
    }

    pub fn reopen(&mut self) {
        assert_eq!(self.exchange(0xFF00_A801, &IDENTITY_ACK), Ok((None, None)));
    }

    /// A list of the SVIDs 1 to `count`, gathered to its end.
    pub fn listed(count: u16) -> Self {
        let mut bench = Bench::open();
        let svids: Vec<u16> = (1..=count).collect();
        for page in svids.chunks_exact(12) {
            assert_eq!(bench.page(page), Ok((None, None)));
        }
        let mut last = svids.chunks_exact(12).remainder().to_vec();
        last.resize((last.len() / 2 + 1) * 2, 0);
        assert_eq!(bench.page(&last), Ok((None, None)));
        bench
    }

    /// A held catalogue of the SVIDs 1 to `count`, each with the modes given.
    pub fn holding(count: u16, modes: &[u32]) -> Self {
        let mut bench = Bench::listed(count);
        for svid in 1..=count {
            let header = u32::from(svid) << 16 | 0xA003;
            let answer = [&[header | 0x40], modes].concat();
            assert_eq!(bench.exchange(header, &answer), Ok((None, None)));
        }
        assert!(bench.laptop.held(Side::Partner).is_some());
        bench
    }
}
