//! Vectors that both implementations answer: their stream, their making, answering and counting.

pub mod answers;
pub mod generator;
pub mod tally;
mod vector;

pub use vector::Vector;
