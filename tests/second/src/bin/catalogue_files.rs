//! Reads a stream of catalogue files from standard input and prints the answer to each.

use second::catalogue_files::answers::print_answers;
use std::io::{self, BufReader, BufWriter, Write};

fn main() -> io::Result<()> {
    let mut input = BufReader::new(io::stdin().lock());
    let mut output = BufWriter::new(io::stdout().lock());
    print_answers(&mut input, &mut output)?;
    output.flush()
}
