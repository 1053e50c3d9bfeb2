//! The digest of the lines: FNV-1a of 32 bits, so that a line can hold what a whole buffer or run
//! contains.

const OFFSET: u32 = 0x811C_9DC5;
const PRIME: u32 = 0x0100_0193;

pub fn of_bytes(bytes: &[u8]) -> u32 {
    bytes.iter().fold(OFFSET, |digest, &byte| {
        (digest ^ u32::from(byte)).wrapping_mul(PRIME)
    })
}

/// Of the words' bytes, low byte first.
pub fn of_words(words: &[u32]) -> u32 {
    let bytes: Vec<u8> = words.iter().flat_map(|word| word.to_le_bytes()).collect();
    of_bytes(&bytes)
}

/// Of the SVIDs' bytes, low byte first.
pub fn of_svids(svids: &[u16]) -> u32 {
    let bytes: Vec<u8> = svids.iter().flat_map(|svid| svid.to_le_bytes()).collect();
    of_bytes(&bytes)
}
