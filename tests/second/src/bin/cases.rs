//! Runs the cases of document 01 and prints what each gives.

use second::cases::print_cases;
use std::io::{self, BufWriter, Write};

fn main() -> io::Result<()> {
    let mut output = BufWriter::new(io::stdout().lock());
    print_cases(&mut output)?;
    output.flush()
}
