//! A small seeded generator (xorshift, 64 bits), so that every run draws the same.

pub const EDGE_SVIDS: [u16; 4] = [0x0001, 0xFF00, 0xFF01, 0xFFFF];
/// One in so many is rare: so is an object or an SVID that is an edge.
const RARE: usize = 8;
/// An odd number whose bits are well mixed: 2^64 by the golden ratio.
const SPREAD: u64 = 0x9E37_79B9_7F4A_7C15;

pub struct Random {
    state: u64,
}

impl Random {
    /// The state of an xorshift is never 0, so seed 0 draws as seed 1 does.
    pub fn from_seed(seed: u64) -> Self {
        Random { state: seed.max(1) }
    }

    /// For seeds that are small numbers in a row, whose first draws would be much alike: their bits
    /// are spread, and 0 has draws of its own.
    pub fn from_small_seed(seed: u64) -> Self {
        Random::from_seed((seed + 1).wrapping_mul(SPREAD))
    }

    pub fn word(&mut self) -> u32 {
        self.state ^= self.state << 13;
        self.state ^= self.state >> 7;
        self.state ^= self.state << 17;
        (self.state >> 32) as u32
    }

    /// A number from 0 up to, and without, `bound`.
    pub fn below(&mut self, bound: usize) -> usize {
        self.word() as usize % bound
    }

    pub fn byte(&mut self) -> u8 {
        self.word() as u8
    }

    pub fn svid(&mut self) -> u16 {
        self.word() as u16
    }

    pub fn one_of<T: Copy>(&mut self, choices: &[T]) -> T {
        choices[self.below(choices.len())]
    }

    pub fn is_rare(&mut self) -> bool {
        self.below(RARE) == 0
    }

    pub fn object(&mut self) -> u32 {
        if self.is_rare() {
            self.one_of(&[0, u32::MAX])
        } else {
            self.word()
        }
    }

    pub fn objects(&mut self, count: usize) -> Vec<u32> {
        (0..count).map(|_| self.object()).collect()
    }

    pub fn svid_but_zero(&mut self) -> u16 {
        if self.is_rare() {
            self.one_of(&EDGE_SVIDS)
        } else {
            self.svid().max(1)
        }
    }

    pub fn different_svids(&mut self, count: usize) -> Vec<u16> {
        let mut svids = Vec::new();
        while svids.len() < count {
            let svid = self.svid_but_zero();
            if !svids.contains(&svid) {
                svids.push(svid);
            }
        }
        svids
    }
}
