//! Events that drive the laptop end of both implementations, with all that a caller can lend and
//! ask: their stream and making.

pub mod answers;
mod event;
pub mod generator;
mod run;
pub mod tally;

pub use event::{put_streams, Event, Item, Lengths};
pub use run::{Outcome, Run};
