//! Runs of every sort of length, with sound files, faults and no bytes: 11 comes first.

use super::{bytes_of, Generator, CASE_L, CASE_L_END, CASE_L_MODE, CASE_L_SVID, ENOUGH_WORDS};
use crate::catalogue_files::file::WHOLE_RUN;
use crate::record::SVID_KIND;

const WORDS: [u16; 9] = [
    0,
    1,
    ENOUGH_WORDS - 1,
    ENOUGH_WORDS,
    ENOUGH_WORDS + 1,
    WHOLE_RUN - 1,
    WHOLE_RUN,
    WHOLE_RUN + 1,
    u16::MAX,
];

impl Generator {
    pub(super) fn lent(&mut self) {
        let mut unknown = CASE_L.to_vec();
        unknown[CASE_L_SVID] = SVID_KIND + 1;
        let cut = CASE_L[..CASE_L_END].to_vec();
        let out_of_order = [&CASE_L[..CASE_L_MODE], &CASE_L[CASE_L_SVID..]].concat();
        let more = [&CASE_L[..], &CASE_L].concat();
        let lists = [self.drawn_sound(0), self.drawn_sound(13), self.longest()];
        let sound = lists.map(|records| bytes_of(&records));
        let faults = [Vec::new(), unknown, cut, out_of_order, more];
        for bytes in sound.into_iter().chain([CASE_L.to_vec()]).chain(faults) {
            for words in WORDS {
                let svid = self.svid_for(&bytes);
                self.read_with(words, svid, bytes.clone());
            }
        }
    }
}
