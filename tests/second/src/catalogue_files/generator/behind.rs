//! Sound files with bytes behind the end: of every sort, since none of them is read.

use super::{bytes_of, Generator, CASE_L};
use crate::catalogue::LEAST_OBJECTS;
use crate::catalogue_files::file::MOST_FILE_BYTES;
use crate::catalogue_files::{Asked, File};
use crate::record::{Record, END_KIND, LEAST_IDENTITY_KIND, MODE_KIND, SVID_KIND};

const ROOM: usize = MOST_FILE_BYTES as usize;
/// Kinds that are unknown.
const UNKNOWN: [u8; 4] = [0x01, 0x02, 0x07, 0xFF];
const DRAWN_BYTES: usize = 9;
const FEW_ZEROS: usize = 64;

impl Generator {
    pub(super) fn behind(&mut self) {
        let lists = [0, 2, 13].map(|svids| self.drawn_sound(svids));
        let lists = lists
            .into_iter()
            .chain([self.longest_list(), self.longest()]);
        let files: Vec<Vec<u8>> = lists.map(|records| bytes_of(&records)).collect();
        for bytes in [CASE_L.to_vec()].iter().chain(&files) {
            for tail in self.tails(bytes) {
                self.read([&bytes[..], &tail].concat());
            }
        }
        self.up_to_the_most(&CASE_L);
        self.up_to_the_most(&files[files.len() - 1]);
    }

    /// An end again, other whole records, cut ones, unknown kinds, zeros, and the file itself.
    fn tails(&mut self, bytes: &[u8]) -> Vec<Vec<u8>> {
        let drawn = (0..DRAWN_BYTES).map(|_| self.random.byte()).collect();
        let mut tails = vec![
            vec![END_KIND],
            vec![END_KIND; 2],
            vec![END_KIND; FEW_ZEROS],
            Record::Mode(self.random.object()).bytes(),
            Record::Svid(self.random.svid_but_zero()).bytes(),
            Record::Identity(self.random.objects(LEAST_OBJECTS)).bytes(),
            vec![MODE_KIND, 1],
            vec![SVID_KIND],
            vec![LEAST_IDENTITY_KIND],
            drawn,
        ];
        tails.extend(UNKNOWN.map(|kind| vec![kind]));
        let itself = bytes[..bytes.len().min(ROOM - bytes.len())].to_vec();
        tails.push(itself);
        tails
    }

    /// The most bytes that are read off the stream, also where it says that there are more.
    fn up_to_the_most(&mut self, bytes: &[u8]) {
        for length in [MOST_FILE_BYTES, MOST_FILE_BYTES + 1, u16::MAX] {
            let svid = self.svid_for(bytes);
            let mut bytes = bytes.to_vec();
            bytes.resize(ROOM, END_KIND);
            let asked = Asked::Catalogue {
                words: u16::MAX,
                svid,
                room: self.room_for(&bytes),
            };
            self.files.push(File {
                asked,
                length,
                bytes,
            });
        }
    }
}
