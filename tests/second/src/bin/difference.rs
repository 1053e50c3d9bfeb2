//! Fails with the first line in which two outputs of a program differ: NAME FILE NAME FILE.

use second::difference::first_difference;
use std::error::Error;
use std::fs;
use std::process::ExitCode;

fn main() -> Result<ExitCode, Box<dyn Error>> {
    let arguments: Vec<String> = std::env::args().skip(1).collect();
    let [our_name, ours, their_name, theirs] = &arguments[..] else {
        return Err("give NAME FILE NAME FILE".into());
    };
    let (ours, theirs) = (fs::read_to_string(ours)?, fs::read_to_string(theirs)?);
    let difference = first_difference((our_name, &ours), (their_name, &theirs));
    Ok(match difference {
        None => ExitCode::SUCCESS,
        Some(difference) => {
            eprintln!("{difference}");
            ExitCode::FAILURE
        }
    })
}
