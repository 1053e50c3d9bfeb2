//! What a stream of link events begins with, of each side: the dock's data, its first page, whether
//! the laptop holds an old catalogue, and the dock's highest edition.

use crate::catalogue::{Catalogue, MOST_CATALOGUE_BYTES, MOST_MODES, RUN_WORDS};
use crate::dock::{LEAST_IDENTITY, MOST_IDENTITY, MOST_SVIDS};
use crate::edition::Edition;
use crate::pages::is_list;
use crate::side::Sides;
use crate::stream::{count_byte, put_objects, take_bytes, take_objects, Stop};
use std::io::{self, Read, Write};
use std::ops::RangeInclusive;

/// What a fair dock answers by.
#[derive(Clone, Debug, PartialEq, Eq)]
pub struct Data {
    pub identity: Vec<u32>,
    pub svids: Vec<u16>,
    /// The modes of each SVID.
    pub modes: Vec<Vec<u32>>,
}

/// The stream is cut before its events, or what it begins with breaks a limit.
#[derive(Clone, Copy, Debug, PartialEq, Eq)]
pub struct BadData;

impl From<Stop> for BadData {
    fn from(_: Stop) -> Self {
        BadData
    }
}

impl From<BadData> for Stop {
    fn from(_: BadData) -> Self {
        Stop::BadDockData
    }
}

/// The partner's, and then the cable's.
pub type Start = Sides<SideStart>;

#[derive(Clone, Debug, PartialEq, Eq)]
pub struct SideStart {
    pub data: Data,
    /// How many pages the dock has sent before.
    pub page: u8,
    pub holds_old: bool,
    /// The highest edition that the dock speaks.
    pub highest: Edition,
}

impl Data {
    /// Of the other dock, from which the old catalogue was gathered.
    pub fn old() -> Self {
        Data {
            identity: vec![1, 2, 3],
            svids: vec![0x1234],
            modes: vec![vec![0x55]],
        }
    }

    pub fn modes_of(&self, svid: u16) -> Option<&[u32]> {
        let place = self.svids.iter().position(|&listed| listed == svid)?;
        self.modes.get(place).map(Vec::as_slice)
    }

    /// The bytes of the catalogue that holds all of it.
    pub fn catalogue_bytes(&self) -> Vec<u8> {
        let mut catalogue = Catalogue::of_identity(&self.identity);
        catalogue.svids = self.svids.clone();
        let mut run = [0; RUN_WORDS];
        for modes in &self.modes {
            catalogue.store_modes(modes, &mut run);
        }
        let mut bytes = [0; MOST_CATALOGUE_BYTES];
        let length = catalogue.write(&run, &mut bytes);
        bytes[..length.expect("no catalogue is longer")].to_vec()
    }

    fn take(input: &mut impl Read) -> Result<Self, BadData> {
        let count = take_count(input, LEAST_IDENTITY..=MOST_IDENTITY)?;
        let identity = take_objects(input, count)?;
        let count = take_count(input, 0..=MOST_SVIDS)?;
        let svids: Result<Vec<u16>, Stop> = (0..count)
            .map(|_| Ok(u16::from_le_bytes(take_bytes(input)?)))
            .collect();
        let svids = svids?;
        let modes: Result<_, BadData> = svids.iter().map(|_| take_modes(input)).collect();
        let modes = modes?;
        if !is_list(&svids) {
            return Err(BadData);
        }
        Ok(Data {
            identity,
            svids,
            modes,
        })
    }

    fn put(&self, output: &mut impl Write) -> io::Result<()> {
        output.write_all(&[count_byte(&self.identity)])?;
        put_objects(&self.identity, output)?;
        output.write_all(&[count_byte(&self.svids)])?;
        for svid in &self.svids {
            output.write_all(&svid.to_le_bytes())?;
        }
        for modes in &self.modes {
            output.write_all(&[count_byte(modes)])?;
            put_objects(modes, output)?;
        }
        Ok(())
    }
}

impl Start {
    pub fn take(input: &mut impl Read) -> Result<Self, BadData> {
        Ok(Start {
            partner: SideStart::take(input)?,
            cable: SideStart::take(input)?,
        })
    }

    pub fn put(&self, output: &mut impl Write) -> io::Result<()> {
        self.partner.put(output)?;
        self.cable.put(output)
    }
}

impl SideStart {
    fn take(input: &mut impl Read) -> Result<Self, BadData> {
        let data = Data::take(input)?;
        let [page] = take_bytes(input)?;
        let holds_old = take_count(input, 0..=1)? == 1;
        let [number] = take_bytes(input)?;
        let highest = Edition::of_number(number).ok_or(BadData)?;
        Ok(SideStart {
            data,
            page,
            holds_old,
            highest,
        })
    }

    fn put(&self, output: &mut impl Write) -> io::Result<()> {
        self.data.put(output)?;
        let holds_old = u8::from(self.holds_old);
        output.write_all(&[self.page, holds_old, self.highest.number()])
    }
}

fn take_modes(input: &mut impl Read) -> Result<Vec<u32>, BadData> {
    let count = take_count(input, 1..=MOST_MODES)?;
    Ok(take_objects(input, count)?)
}

/// A byte within these limits.
fn take_count(input: &mut impl Read, limits: RangeInclusive<usize>) -> Result<u8, BadData> {
    let [count] = take_bytes(input)?;
    if !limits.contains(&usize::from(count)) {
        return Err(BadData);
    }
    Ok(count)
}
