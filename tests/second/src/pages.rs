//! Pages: how the dock shows a list of SVIDs, twelve at a time, and how the laptop takes each.

use std::collections::BTreeSet;

pub const MOST_SVIDS: usize = 72;
pub const PAGE_SVIDS: usize = 12;
const SVIDS_PER_OBJECT: usize = 2;

#[derive(Clone, Debug, PartialEq, Eq)]
pub struct Page {
    pub objects: Vec<u32>,
    pub ends_list: bool,
}

/// What a page does to the list gathered before it; a list is the one gathered with it.
#[derive(Clone, Debug, PartialEq, Eq)]
pub enum Taken {
    Repeat,
    More(Vec<u16>),
    Ends(Vec<u16>),
    Bad,
}

/// Whether there are 0 to 72 SVIDs, none 0, all different.
pub fn is_list(svids: &[u16]) -> bool {
    let different: BTreeSet<&u16> = svids.iter().collect();
    svids.len() <= MOST_SVIDS && !svids.contains(&0) && different.len() == svids.len()
}

/// Page `number` of the list, counted from 0. Past the end of the list nothing remains, so such a
/// page is one zero object, as is the last page of a list of 12, 24 and so on.
pub fn page(svids: &[u16], number: usize) -> Page {
    let shown = svids.chunks(PAGE_SVIDS).nth(number).unwrap_or_default();
    let ends_list = shown.len() < PAGE_SVIDS;
    let mut halves = shown.to_vec();
    if ends_list {
        let objects = shown.len() / SVIDS_PER_OBJECT + 1;
        halves.resize(objects * SVIDS_PER_OBJECT, 0);
    }
    let (pairs, _) = halves.as_chunks::<SVIDS_PER_OBJECT>();
    Page {
        objects: pairs.iter().map(|&pair| object(pair)).collect(),
        ends_list,
    }
}

/// Takes a page of 1 to 6 objects after the SVIDs gathered so far.
pub fn take_page(gathered: &[u16], objects: &[u32]) -> Taken {
    let halves: Vec<u16> = objects.iter().flat_map(|&object| pair(object)).collect();
    if halves.len() == PAGE_SVIDS && gathered.ends_with(&halves) {
        return Taken::Repeat;
    }
    let values = halves.iter().take_while(|&&half| half != 0).count();
    let (svids, from_first_zero) = halves.split_at(values);
    let list = [gathered, svids].concat();
    let is_full = svids.len() == PAGE_SVIDS;
    let ends_list = matches!(from_first_zero, [0] | [0, 0]);
    if list.is_empty() || !is_list(&list) {
        Taken::Bad
    } else if is_full {
        Taken::More(list)
    } else if ends_list {
        Taken::Ends(list)
    } else {
        Taken::Bad
    }
}

fn object([high, low]: [u16; SVIDS_PER_OBJECT]) -> u32 {
    u32::from(high) << u16::BITS | u32::from(low)
}

fn pair(object: u32) -> [u16; SVIDS_PER_OBJECT] {
    [(object >> u16::BITS) as u16, object as u16]
}
