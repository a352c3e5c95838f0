//! Measures the static library against engines in plain Rust, by instructions, on the same inputs in one run.
mod bits;
mod bitsets;
mod classes;
mod counts;
mod inputs;
mod jobs;
mod listing;
mod matrices;
mod page;
mod reading;
mod report;
mod tarjan;
mod walk;

use report::Report;
use std::error::Error;

const USAGE: &str = "usage: bench/run            prints counts and ratios
       bench/run profile    prints for each input the functions of the library that took the most, too
       bench/run page       writes the figures of docs/PERFORMANCE.md anew";

fn main() -> Result<(), Box<dyn Error>> {
    let inputs = inputs::all();
    match std::env::args().nth(1).as_deref() {
        // what callgrind runs
        Some("jobs") => jobs::run_all(&inputs),
        None => print!("{}", Report::make(&inputs)?.tables()?),
        Some("profile") => {
            let report = Report::make(&inputs)?;
            print!("{}\n{}", report.tables()?, report.profiles(|_| true)?);
        }
        Some("page") => page::write(&Report::make(&inputs)?)?,
        Some(_) => println!("{USAGE}"),
    }
    Ok(())
}
