//! Makes the calls that a file of steps names and prints a line for each.

use second::steps::print_lines;
use std::io::{self, BufWriter, Write};

fn main() -> io::Result<()> {
    let mut output = BufWriter::new(io::stdout().lock());
    print_lines(&mut io::stdin().lock(), &mut output)?;
    output.flush()
}
