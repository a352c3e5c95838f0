//! The tables of counts and ratios.
use crate::counts::{Dumps, Taken};
use crate::inputs::Named;
use crate::jobs::{assert_equal, ENGINES, SEARCHES};
use std::error::Error;
use std::fmt::{self, Write};

/// What was taken on each input.
pub struct Report<'a>(Vec<Measured<'a>>);

struct Measured<'a> {
    input: &'a Named,
    // the library's, and then the engines'
    whole: Vec<Taken>,
    // the library's, and then the others'
    search: Vec<Taken>,
}

const HEAD: [&str; 4] = ["library", "matrices", "all rounds", "bit sets"];

impl Report<'_> {
    /// Sees to it that all engines agree, and measures them.
    pub fn make(inputs: &[Named]) -> Result<Report<'_>, Box<dyn Error>> {
        assert_equal(inputs);
        let dumps = Dumps::make()?;
        let mut jobs = 0..;
        let mut take = |count| jobs.by_ref().take(count).map(|job| dumps.taken(job)).collect::<Result<Vec<_>, _>>();
        let measured = inputs.iter().map(|input| {
            let whole = take(ENGINES.len())?;
            let search = take(if input.tables.is_some() { SEARCHES.len() } else { 0 })?;
            Ok(Measured { input, whole, search })
        });
        measured.collect::<Result<_, _>>().map(Report)
    }

    /// The counts and ratios of whole jobs and of searches, and how counts grow.
    pub fn tables(&self) -> Result<String, fmt::Error> {
        let mut text = String::new();
        head(&mut text, "whole job", &HEAD)?;
        for Measured { input, whole, .. } in &self.0 {
            line(&mut text, &input.name, whole)?;
        }
        text.push('\n');
        head(&mut text, "components", &["library", "textbook", "sets"])?;
        for Measured { input, search, .. } in self.0.iter().filter(|measured| !measured.search.is_empty()) {
            line(&mut text, &input.name, search)?;
        }
        text.push('\n');
        self.growth(&mut text)?;
        Ok(text)
    }

    // How many times as much each took as for half as many states.
    fn growth(&self, text: &mut String) -> fmt::Result {
        write!(text, "{:<32}", "growth to")?;
        for name in HEAD {
            write!(text, " {name:>13}")?;
        }
        text.push('\n');
        for pair in self.0.windows(2) {
            let (half, full) = (&pair[0], &pair[1]);
            if full.input.family.is_none() || half.input.family != full.input.family {
                continue;
            }
            write!(text, "{:<32}", full.input.name)?;
            for (half, full) in half.whole.iter().zip(&full.whole) {
                write!(text, " {:>13.2}", full.instructions() as f64 / half.instructions() as f64)?;
            }
            text.push('\n');
        }
        Ok(())
    }

    /// The functions that took the most of the library's count, for each input that is wanted.
    pub fn profiles(&self, wanted: impl Fn(&str) -> bool) -> Result<String, fmt::Error> {
        let mut text = String::new();
        for Measured { input, whole, search } in self.0.iter().filter(|measured| wanted(&measured.input.name)) {
            for (what, taken) in [("whole job", whole), ("components", search)] {
                if let Some(taken) = taken.first() {
                    profile(&mut text, &format!("{what}, {}", input.name), taken)?;
                }
            }
        }
        Ok(text)
    }
}

fn head(text: &mut String, what: &str, engines: &[&str]) -> fmt::Result {
    write!(text, "{what:<32} {:>13}", engines[0])?;
    for engine in &engines[1..] {
        write!(text, " {engine:>13} {:>6}", "ratio")?;
    }
    text.push('\n');
    Ok(())
}

// The library's count, and each engine's with the library's in parts of it.
fn line(text: &mut String, name: &str, taken: &[Taken]) -> fmt::Result {
    let library = taken[0].instructions();
    write!(text, "{name:<32} {library:>13}")?;
    for engine in taken[1..].iter().map(Taken::instructions) {
        write!(text, " {engine:>13} {:>6.2}", library as f64 / engine as f64)?;
    }
    text.push('\n');
    Ok(())
}

fn profile(text: &mut String, of: &str, taken: &Taken) -> fmt::Result {
    let all = taken.instructions();
    writeln!(text, "{of}: {all}")?;
    for (name, count) in taken.most() {
        writeln!(text, "    {count:>13} {:>5.1} % {name}", 100.0 * *count as f64 / all as f64)?;
    }
    Ok(())
}
