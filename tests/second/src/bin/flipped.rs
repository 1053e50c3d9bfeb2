//! Prints the stored stream of a program, which is named as the first argument, with bit 5 of each
//! message's header the other way round. It means nothing, so the answers are those that are stored.

use second::generating::SEED;
use second::{dock_events, laptop_events, vectors, watcher};
use std::io::{self, Write};

fn main() -> io::Result<()> {
    let mut stream = Vec::new();
    match std::env::args().nth(1).as_deref() {
        Some("vectors") => vectors::generator::generate(SEED)
            .into_iter()
            .try_for_each(|vector| vector.with_reserved_flipped().put(&mut stream))?,
        Some("dock_events") => dock_events::generator::generate(SEED)
            .into_iter()
            .try_for_each(|event| event.with_reserved_flipped().put(&mut stream))?,
        Some("watcher") => watcher::generator::generate(SEED)
            .into_iter()
            .try_for_each(|event| event.with_reserved_flipped().put(&mut stream))?,
        Some("laptop_events") => {
            let streams: Vec<_> = (1..=laptop_events::generator::STREAMS)
                .map(|number| {
                    let events = laptop_events::generator::stored_stream(number).into_iter();
                    events
                        .map(laptop_events::Event::with_reserved_flipped)
                        .collect()
                })
                .collect();
            laptop_events::put_streams(&streams, &mut stream)?;
        }
        _ => {
            return Err(io::Error::other(
                "name vectors, dock_events, watcher or laptop_events",
            ))
        }
    }
    io::stdout().write_all(&stream)
}
