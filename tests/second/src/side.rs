//! The two sides of a laptop end (02, R-4): the port partner and the near cable plug.

use std::fmt;
use std::ops::{Index, IndexMut};

/// What is added to a kind of the partner's for its cable twin.
const CABLE_TWIN: u8 = 0x80;

#[derive(Clone, Copy, Debug, PartialEq, Eq, PartialOrd, Ord)]
pub enum Side {
    Partner,
    Cable,
}

/// One for each side.
#[derive(Clone, Copy, Debug, Default, PartialEq, Eq)]
pub struct Sides<T> {
    pub partner: T,
    pub cable: T,
}

impl<T> Sides<T> {
    /// What `make` gives for each side.
    pub fn each(mut make: impl FnMut(Side) -> T) -> Self {
        Sides {
            partner: make(Side::Partner),
            cable: make(Side::Cable),
        }
    }
}

impl Side {
    pub const BOTH: [Side; 2] = [Side::Partner, Side::Cable];

    pub fn other(self) -> Self {
        match self {
            Side::Partner => Side::Cable,
            Side::Cable => Side::Partner,
        }
    }

    /// The side that a kind says, and the partner's kind of which it is the twin or which it is.
    pub fn of_kind(kind: u8) -> (Self, u8) {
        match kind.checked_sub(CABLE_TWIN) {
            Some(twin) => (Side::Cable, twin),
            None => (Side::Partner, kind),
        }
    }

    /// This side's twin of a kind of the partner's.
    pub fn twin(self, kind: u8) -> u8 {
        match self {
            Side::Partner => kind,
            Side::Cable => kind + CABLE_TWIN,
        }
    }
}

/// As a field of a line.
impl fmt::Display for Side {
    fn fmt(&self, formatter: &mut fmt::Formatter) -> fmt::Result {
        formatter.write_str(match self {
            Side::Partner => "partner",
            Side::Cable => "cable",
        })
    }
}

impl<T> Index<Side> for Sides<T> {
    type Output = T;

    fn index(&self, side: Side) -> &T {
        match side {
            Side::Partner => &self.partner,
            Side::Cable => &self.cable,
        }
    }
}

impl<T> IndexMut<Side> for Sides<T> {
    fn index_mut(&mut self, side: Side) -> &mut T {
        match side {
            Side::Partner => &mut self.partner,
            Side::Cable => &mut self.cable,
        }
    }
}
