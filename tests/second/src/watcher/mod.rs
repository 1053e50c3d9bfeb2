//! The watcher program (01, "Catalogue bytes and the watcher program"): laptop events, their
//! stream, making and counting.

pub mod answers;
pub mod edges;
mod event;
pub mod generator;
mod run;
pub mod tally;

pub use event::Event;
pub use run::{Outcome, Run};
