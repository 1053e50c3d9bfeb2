//! Events that drive the dock end of both implementations: their stream, making and counting.

pub mod answers;
mod event;
pub mod generator;
mod run;
pub mod tally;

pub use event::Event;
pub use run::{Outcome, Run};
