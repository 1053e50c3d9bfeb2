//! The laptop end and two far ends, each joined to it by the link of demand 3 (01, "The link and the
//! fair dock of demand 3"; 02, R-4 and R-5): the events, their stream, making and counting, and the
//! demand itself.

pub mod answers;
pub mod checks;
mod event;
mod far_end;
pub mod generator;
mod link;
mod needed;
mod start;
mod system;
pub mod tally;

pub use event::{put_streams, Event, Item, LinkEvent};
pub use far_end::FarEnd;
pub use start::{BadData, Data, SideStart, Start};
pub use system::{Outcome, System};
