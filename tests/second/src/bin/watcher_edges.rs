//! Writes the streams at the edges of the watcher's input, each to a file of the directory given.

use second::watcher::edges::edges;
use std::error::Error;
use std::fs;
use std::path::PathBuf;

fn main() -> Result<(), Box<dyn Error>> {
    let directory = PathBuf::from(std::env::args().nth(1).ok_or("give a directory")?);
    fs::create_dir_all(&directory)?;
    for (name, stream) in edges() {
        fs::write(directory.join(name), stream)?;
    }
    Ok(())
}
