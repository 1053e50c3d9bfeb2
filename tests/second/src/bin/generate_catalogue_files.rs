//! Prints a stream of catalogue files, the same for the same seed, and counts on standard error
//! what they reach. The seed can be given, in decimal, as the first argument.

use second::catalogue_files::generator::generate;
use second::catalogue_files::tally::Tally;
use second::generating::{print, seed};
use std::error::Error;
use std::process::ExitCode;

fn main() -> Result<ExitCode, Box<dyn Error>> {
    let files = generate(seed()?);
    let mut tally = Tally::default();
    let mut stream = Vec::new();
    for file in &files {
        tally.count(file);
        file.put(&mut stream)?;
    }
    let totals = format!("files: {}, bytes: {}", files.len(), stream.len());
    let counts = format!("{}\n{totals}", tally.table());
    Ok(print(&stream, counts, &tally.missing())?)
}
