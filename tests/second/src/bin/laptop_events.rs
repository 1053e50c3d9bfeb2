//! Answers a stream of laptop events from standard input, a line each.

use second::laptop_events::answers::print_answers;
use std::io::{self, BufReader, BufWriter, Write};

fn main() -> io::Result<()> {
    let mut input = BufReader::new(io::stdin().lock());
    let mut output = BufWriter::new(io::stdout().lock());
    print_answers(&mut input, &mut output)?;
    output.flush()
}
