//! Compares the static library with the second implementation, on inputs from a seeded generator.
//! It prints how many were compared and how they ended; at the first difference it prints that and ends with status 1.
//! An argument is another seed for the generator.
mod calls;
mod cases;

use calls::Tally;
use std::process::ExitCode;

fn main() -> ExitCode {
    let seed = std::env::args().nth(1).and_then(|word| word.parse().ok()).unwrap_or(20);
    let mut tally = Tally::default();
    let outcome = cases::all(&mut tally, seed);
    print!("{tally}");
    match outcome {
        Ok(()) => {
            println!("no difference");
            ExitCode::SUCCESS
        }
        Err(difference) => {
            println!("{difference}");
            ExitCode::FAILURE
        }
    }
}
