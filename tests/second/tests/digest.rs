//! The digest of the lines, held against published values of FNV-1a.

use second::digest::{of_bytes, of_svids, of_words};

#[test]
fn published_values() {
    assert_eq!(of_bytes(b""), 0x811C_9DC5);
    assert_eq!(of_bytes(b"a"), 0xE40C_292C);
    assert_eq!(of_bytes(b"foobar"), 0xBF9C_F968);
}

#[test]
fn words_and_svids_are_taken_low_byte_first() {
    let words = [u32::from_le_bytes(*b"foob"), u32::from_le_bytes(*b"arch")];
    assert_eq!(of_words(&words), of_bytes(b"foobarch"));
    let svids = [u16::from_le_bytes(*b"fo"), u16::from_le_bytes(*b"ob")];
    assert_eq!(of_svids(&svids), of_bytes(b"foob"));
}
