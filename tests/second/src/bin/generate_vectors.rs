//! Prints a stream of vectors, the same for the same seed, and counts their answers on standard
//! error. The seed can be given, in decimal, as the first argument.

use second::generating::{print, seed};
use second::vectors::generator::generate;
use second::vectors::tally::Tally;
use std::error::Error;
use std::process::ExitCode;

fn main() -> Result<ExitCode, Box<dyn Error>> {
    let vectors = generate(seed()?);
    let mut tally = Tally::default();
    let mut stream = Vec::new();
    for vector in &vectors {
        tally.count(vector);
        vector.put(&mut stream)?;
    }
    let totals = format!("vectors: {}, bytes: {}", vectors.len(), stream.len());
    let counts = format!("{tally}\n{totals}");
    Ok(print(&stream, counts, &tally.missing())?)
}
