//! Catalogue files that both implementations read: their stream, their making, answering and
//! counting.

pub mod answers;
mod file;
pub mod generator;
pub mod tally;

pub use file::{Asked, File};
