//! What is measured of the proved libraries: those of this commit and, with the feature `beside`,
//! those of another.

use crate::plain_reader::Lent;
use crate::reading::{self, Answer};
use crate::reading_back;
use second::catalogue::RUN_WORDS;
use second::messages::MOST_AFTER_HEADER;
use second::pages::MOST_SVIDS;

/// What is awaited with its SVID, command and position; then of each side the candidate with its
/// identity objects, SVIDs and SVIDs with modes, the pages, what is held with its identity objects
/// and SVIDs, the edition.
pub type State = [u16; 22];
pub type Handed = [u32; 8];

/// The side whose messages are measured.
const PARTNER: u8 = 0;

/// What is lent of a side beside the state.
pub struct Memory {
    pub svids: [u16; MOST_SVIDS],
    modes: [u8; MOST_SVIDS],
    identity: [u32; MOST_AFTER_HEADER],
    run: [u32; RUN_WORDS],
    held_svids: [u16; MOST_SVIDS],
    held_modes: [u8; MOST_SVIDS],
    held_identity: [u32; MOST_AFTER_HEADER],
    held_run: [u32; RUN_WORDS],
    entered: [u8; MOST_SVIDS],
}

impl Memory {
    pub fn empty() -> Self {
        Memory {
            svids: [0; MOST_SVIDS],
            modes: [0; MOST_SVIDS],
            identity: [0; MOST_AFTER_HEADER],
            run: [0; RUN_WORDS],
            held_svids: [0; MOST_SVIDS],
            held_modes: [0; MOST_SVIDS],
            held_identity: [0; MOST_AFTER_HEADER],
            held_run: [0; RUN_WORDS],
            entered: [0; MOST_SVIDS],
        }
    }
}

/// The functions and the program of one commit.
pub struct Library {
    pub name: &'static str,
    pub read: reading::Reader,
    /// Of the partner.
    pub message: fn(&mut Memory, &mut State, &[u8], &mut Handed) -> u8,
    pub read_back: reading_back::Reader,
    pub watcher: &'static str,
}

/// A library whose symbols, and the file of whose watcher, begin with the prefix. It is a macro
/// since the name of a symbol has to be a literal.
macro_rules! library {
    ($name:literal, $prefix:literal) => {{
        extern "C" {
            #[link_name = concat!($prefix, "exports_read")]
            fn exports_read(bytes: *const u8, length: usize, into: *mut u32) -> u8;
            #[link_name = concat!($prefix, "laptop_message")]
            fn laptop_message(
                state: *mut u16,
                side: u8,
                bytes: *const u8,
                length: usize,
                svids: *mut u16,
                modes: *mut u8,
                identity: *mut u32,
                run: *mut u32,
                run_words: usize,
                held_svids: *mut u16,
                held_modes: *mut u8,
                held_identity: *mut u32,
                held_run: *mut u32,
                held_run_words: usize,
                entered: *mut u8,
                handed: *mut u32,
            ) -> u8;
            #[link_name = concat!($prefix, "catalogue_read")]
            fn catalogue_read(
                bytes: *const u8,
                length: usize,
                svids: *mut u16,
                modes: *mut u8,
                identity: *mut u32,
                run: *mut u32,
                run_words: usize,
                sizes: *mut u16,
            ) -> u32;
        }

        #[inline(never)]
        fn read(bytes: &[u8], into: &mut Answer) -> u8 {
            // SAFETY: it reads `length` bytes and writes twelve words or none.
            unsafe { exports_read(bytes.as_ptr(), bytes.len(), into.as_mut_ptr()) }
        }

        #[inline(never)]
        fn message(
            memory: &mut Memory,
            state: &mut State,
            bytes: &[u8],
            handed: &mut Handed,
        ) -> u8 {
            // SAFETY: each array has the length that the library's function names, and a slice
            // goes with its length.
            unsafe {
                laptop_message(
                    state.as_mut_ptr(),
                    PARTNER,
                    bytes.as_ptr(),
                    bytes.len(),
                    memory.svids.as_mut_ptr(),
                    memory.modes.as_mut_ptr(),
                    memory.identity.as_mut_ptr(),
                    memory.run.as_mut_ptr(),
                    memory.run.len(),
                    memory.held_svids.as_mut_ptr(),
                    memory.held_modes.as_mut_ptr(),
                    memory.held_identity.as_mut_ptr(),
                    memory.held_run.as_mut_ptr(),
                    memory.held_run.len(),
                    memory.entered.as_mut_ptr(),
                    handed.as_mut_ptr(),
                )
            }
        }

        #[inline(never)]
        fn read_back(bytes: &[u8], lent: &mut Lent) -> u32 {
            // SAFETY: as above.
            unsafe {
                catalogue_read(
                    bytes.as_ptr(),
                    bytes.len(),
                    lent.svids.as_mut_ptr(),
                    lent.modes.as_mut_ptr(),
                    lent.identity.as_mut_ptr(),
                    lent.run.as_mut_ptr(),
                    lent.run.len(),
                    lent.sizes.as_mut_ptr(),
                )
            }
        }

        Library {
            name: $name,
            read,
            message,
            read_back,
            watcher: concat!($prefix, "watcher"),
        }
    }};
}

pub const LIBRARIES: &[Library] = &[
    library!("proved", ""),
    #[cfg(feature = "beside")]
    library!("beside", "beside_"),
];

/// The libraries and Rust's version, in words.
pub const ALL_VERSIONS: &str = if LIBRARIES.len() == 1 {
    "both versions"
} else {
    "all three versions"
};
