//! Compares the proved libraries and the proved watcher with the second implementation, first in
//! answers, then in speed.

mod plain;
mod plain_reader;
mod proved;
mod reading;
mod reading_back;
mod rounds;
mod taking;
mod watching;

fn main() {
    reading::measure();
    taking::measure();
    reading_back::measure();
    watching::measure();
}
