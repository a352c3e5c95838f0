//! The figures in the page docs/PERFORMANCE.md, which stand between two marks.
use crate::report::Report;
use std::error::Error;
use std::fs;
use std::path::Path;
use std::process::Command;

const BEGIN: &str = "<!-- figures: bench/run page -->\n";
const END: &str = "<!-- end of figures -->\n";
// The inputs whose profiles the page has.
const PROFILED: [&str; 4] =
    ["chain of 128", "random 128, 3 moves, 1 word", "random 128, 128 moves, 64 words", "rows of 4,096 moves"];

/// Writes the report's figures in the place of those that the page has.
pub fn write(report: &Report<'_>) -> Result<(), Box<dyn Error>> {
    let path = Path::new(env!("CARGO_MANIFEST_DIR")).join("../docs/PERFORMANCE.md");
    let page = fs::read_to_string(&path)?;
    let (before, rest) = page.split_once(BEGIN).ok_or("the page has no mark where its figures begin")?;
    let (_, after) = rest.split_once(END).ok_or("the page has no mark where its figures end")?;
    let version = String::from_utf8(Command::new("rt").arg("version").output()?.stdout)?;
    let (tables, profiles) = (report.tables()?, report.profiles(|name| PROFILED.contains(&name))?);
    let figures = format!("Measured with `{}`.\n\n```text\n{tables}```\n\nWhere the library's instructions go:\n\n```text\n{profiles}```\n", version.trim());
    fs::write(&path, [before, BEGIN, &figures, END, after].concat())?;
    Ok(())
}
