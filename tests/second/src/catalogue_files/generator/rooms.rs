//! The room of the second buffer, into which a file is mended: 11 goes by the exact length of what
//! comes out, and 19 comes before it.

use super::{bytes_of, Generator, CASE_L, CASE_L_END, CASE_L_MODE, CASE_L_SVID, ENOUGH_WORDS};
use crate::catalogue::{MOST_CATALOGUE_BYTES, MOST_MODES};
use crate::catalogue_file::mend;
use crate::catalogue_files::file::WHOLE_ROOM;
use crate::catalogue_files::{Asked, File};
use crate::record::{Record, END_KIND, MODE_KIND, SVID_KIND};
use std::collections::BTreeSet;

const ENOUGH_ROOM: u16 = MOST_CATALOGUE_BYTES as u16;
/// Each is enough for any file.
const ENOUGH: [u16; 6] = [
    ENOUGH_ROOM,
    ENOUGH_ROOM + 1,
    WHOLE_ROOM - 1,
    WHOLE_ROOM,
    WHOLE_ROOM + 1,
    u16::MAX,
];
const UNKNOWN_KIND: u8 = SVID_KIND + 1;

impl Generator {
    /// Mostly enough; else exactly what is needed, one byte less, no byte, or as many as the file
    /// has.
    pub(super) fn room_for(&mut self, bytes: &[u8]) -> u16 {
        let needed = needed_for(bytes);
        match self.room_random.below(16) {
            0..=2 => needed,
            3..=4 => needed.saturating_sub(1),
            5 => 0,
            6 => bytes.len() as u16,
            _ => self.room_random.one_of(&ENOUGH),
        }
    }

    /// Every sort of room for sound files, for each fault, and for files without an identity.
    pub(super) fn rooms(&mut self) {
        let sound = self.sound_for_rooms();
        let damaged = self.damaged_for_rooms();
        for bytes in sound.into_iter().chain(damaged).chain(without_identity()) {
            let needed = needed_for(&bytes);
            let near = needed.saturating_sub(1)..=needed + 1;
            let others = [0, 1, bytes.len() as u16, ENOUGH_ROOM - 1];
            let rooms: BTreeSet<u16> = near.chain(others).chain(ENOUGH).collect();
            for room in rooms {
                self.read_in(room, bytes.clone());
            }
        }
    }

    fn read_in(&mut self, room: u16, bytes: Vec<u8>) {
        let asked = Asked::Catalogue {
            words: ENOUGH_WORDS,
            svid: self.svid_for(&bytes),
            room,
        };
        self.files.push(File::of(asked, bytes));
    }

    fn sound_for_rooms(&mut self) -> Vec<Vec<u8>> {
        let lists = [
            self.drawn_sound(0),
            self.drawn_sound(2),
            self.drawn_sound(13),
            self.longest_list(),
            self.longest(),
        ];
        let lists = lists.into_iter().map(|records| bytes_of(&records));
        [CASE_L.to_vec()].into_iter().chain(lists).collect()
    }

    /// A short list and a middling one without the end, cut before it and with more behind it;
    /// case L with each fault; the longest files without the end, and with more behind.
    fn damaged_for_rooms(&mut self) -> Vec<Vec<u8>> {
        let mut files = Vec::new();
        for records in [self.drawn_sound(2), self.drawn_sound(13)] {
            let bytes = bytes_of(&records);
            files.push(bytes[..bytes.len() - 1].to_vec());
            files.push(bytes[..bytes.len() - 2].to_vec());
            files.push([&bytes[..], &[END_KIND]].concat());
        }
        files.extend(faults_of_case_l());
        let longest = bytes_of(&self.longest());
        let longest_list = bytes_of(&self.longest_list());
        for bytes in [longest, longest_list] {
            let but_end = &bytes[..bytes.len() - 1];
            let svid = Record::Svid(self.random.svid_but_zero()).bytes();
            files.push(but_end.to_vec());
            files.push([but_end, &svid].concat());
            files.push([&bytes[..], &[UNKNOWN_KIND]].concat());
        }
        files
    }
}

/// The exact length of what comes out; 0 where nothing does.
fn needed_for(bytes: &[u8]) -> u16 {
    let mended = mend(bytes, &mut [0; MOST_CATALOGUE_BYTES]);
    mended.map_or(0, |mended| mended.kept().length as u16)
}

/// Each fault behind the identity, a bare SVID and a mode, and 18.
fn faults_of_case_l() -> Vec<Vec<u8>> {
    let mut files = vec![[&CASE_L[..], &CASE_L].concat()];
    for whole in [CASE_L_SVID, CASE_L_MODE, CASE_L_END] {
        let before = &CASE_L[..whole];
        let identity = &CASE_L[..CASE_L_SVID];
        files.push([before, &[UNKNOWN_KIND], &CASE_L[whole..]].concat());
        files.push(before.to_vec());
        files.push([before, &[MODE_KIND, 0]].concat());
        files.push([before, identity].concat());
    }
    let seventh_mode = CASE_L[CASE_L_MODE..CASE_L_END].repeat(1 + MOST_MODES);
    files.push([&CASE_L[..CASE_L_MODE], &seventh_mode].concat());
    files
}

/// No bytes, an unknown kind, a cut identity, and other kinds first.
fn without_identity() -> Vec<Vec<u8>> {
    vec![
        Vec::new(),
        [&[UNKNOWN_KIND][..], &CASE_L].concat(),
        CASE_L[..1].to_vec(),
        CASE_L[..CASE_L_SVID - 1].to_vec(),
        vec![END_KIND],
        CASE_L[CASE_L_SVID..].to_vec(),
        CASE_L[CASE_L_MODE..].to_vec(),
        CASE_L[CASE_L_MODE..CASE_L_END - 1].to_vec(),
    ]
}
