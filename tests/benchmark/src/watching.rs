//! The watcher: the versions' programs on one stream of a million events of both sides, their lines
//! compared, then their time.

use crate::proved::{Library, ALL_VERSIONS, LIBRARIES};
use crate::rounds;
use second::side::Side;
use second::watcher::Event;
use std::env;
use std::fs;
use std::path::{Path, PathBuf};
use std::process::{Command, Stdio};

const EVENTS: usize = 1_000_000;
/// Generated streams, one after the other, that together have more events than the watcher reads.
const SEEDS: u64 = 60;

pub fn measure() {
    let folder = env::temp_dir();
    let stream = folder.join("graftpigeon-watcher-stream");
    let bytes = generated();
    fs::write(&stream, &bytes).expect("the stream can be written");
    let rust = second("watcher");
    let lines = run(&rust, &stream);
    for library in LIBRARIES {
        let same = run(&proved(library), &stream) == lines;
        assert!(same, "the lines of {} and Rust differ", library.name);
    }
    assert!(lines.ends_with(format!("end {EVENTS} events\n").as_bytes()));
    println!(
        "\nwatcher: {EVENTS} events, {} of them of the cable, {ALL_VERSIONS} print the same {} bytes",
        of_cable(&bytes),
        lines.len()
    );
    rounds::compare(
        EVENTS,
        |library| drop(run(&proved(library), &stream)),
        || drop(run(&rust, &stream)),
    );
    fs::remove_file(&stream).expect("the stream can be removed");
}

fn generated() -> Vec<u8> {
    (1..=SEEDS)
        .flat_map(|seed| output(Command::new(second("generate_watcher")).arg(seed.to_string())))
        .collect()
}

/// How many of the events are messages from the cable, or calls for it.
fn of_cable(mut stream: &[u8]) -> usize {
    (0..EVENTS)
        .map_while(|_| Event::take(&mut stream).ok())
        .filter(|event| event.side() == Some(Side::Cable))
        .count()
}

fn run(program: &Path, stream: &Path) -> Vec<u8> {
    let input = fs::File::open(stream).expect("the stream can be read");
    output(Command::new(program).stdin(input))
}

fn output(command: &mut Command) -> Vec<u8> {
    let done = command
        .stderr(Stdio::null())
        .output()
        .expect("the program starts");
    assert!(done.status.success(), "{command:?} failed");
    done.stdout
}

fn proved(library: &Library) -> PathBuf {
    let folder = env::var("GRAFTPIGEON_PROVED").expect("tests/benchmark/run sets it");
    Path::new(&folder).join(library.watcher)
}

/// A program of the second implementation.
fn second(name: &str) -> PathBuf {
    Path::new(env!("CARGO_MANIFEST_DIR"))
        .join("../second/target/release")
        .join(name)
}
