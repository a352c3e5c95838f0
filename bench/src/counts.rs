//! The counts of instructions, from callgrind.
use std::collections::HashMap;
use std::error::Error;
use std::path::PathBuf;
use std::process::{Command, Stdio};
use std::{env, fs};

type Tried<T> = Result<T, Box<dyn Error>>;

// The C library fills and copies long memory by one instruction that callgrind counts once for each byte.
const NO_STRING_INSTRUCTIONS: &str =
    "glibc.cpu.x86_rep_stosb_threshold=100000000:glibc.cpu.x86_rep_movsb_threshold=100000000";

/// The dumps of one run, one for each measured job.
pub struct Dumps {
    folder: PathBuf,
}

/// What a job took: the instructions of each function itself, the most first.
pub struct Taken {
    pub functions: Vec<(String, u64)>,
}

impl Dumps {
    /// Runs this program's jobs under callgrind, which writes a dump after each.
    pub fn make() -> Tried<Dumps> {
        let program = env::current_exe()?;
        let folder = program.with_file_name("dumps");
        if folder.exists() {
            fs::remove_dir_all(&folder)?;
        }
        fs::create_dir_all(&folder)?;
        let status = Command::new("valgrind")
            .args(["--tool=callgrind", "--toggle-collect=measured_job", "--dump-after=measured_job"])
            .arg(format!("--callgrind-out-file={}", folder.join("dump").display()))
            .arg(&program)
            .arg("jobs")
            .env("GLIBC_TUNABLES", NO_STRING_INSTRUCTIONS)
            .stderr(Stdio::null())
            .status()?;
        if status.success() {
            Ok(Dumps { folder })
        } else {
            Err(format!("callgrind: {status}").into())
        }
    }

    /// What a job took, counted from 0.
    pub fn taken(&self, job: usize) -> Tried<Taken> {
        let path = self.folder.join(format!("dump.{}", job + 1));
        let text = fs::read_to_string(&path).map_err(|e| format!("{}: {e}", path.display()))?;
        let mut functions: Vec<(String, u64)> = by_function(&text).into_iter().collect();
        functions.sort_by(|one, other| other.1.cmp(&one.1).then_with(|| one.0.cmp(&other.0)));
        Ok(Taken { functions })
    }
}

impl Taken {
    pub fn instructions(&self) -> u64 {
        self.functions.iter().map(|(_, count)| count).sum()
    }

    /// The ten functions that took the most, without those that took less than one in two hundred.
    pub fn most(&self) -> impl Iterator<Item = &(String, u64)> {
        let least = self.instructions() / 200;
        self.functions.iter().take(10).filter(move |(_, count)| *count >= least)
    }
}

// Sums a dump's counts. A function stands in a line of its own before its counts, by a number that the first line with
// it gives a name to; the count behind a line of calls is of the function that was called, which has it already.
fn by_function(dump: &str) -> HashMap<String, u64> {
    let mut names: HashMap<&str, &str> = HashMap::new();
    let mut counts: HashMap<&str, u64> = HashMap::new();
    let (mut current, mut of_call) = ("", false);
    for line in dump.lines() {
        let function = line.strip_prefix("fn=");
        if let Some(named) = function.or(line.strip_prefix("cfn=")) {
            let (number, name) = named.split_once(' ').unwrap_or((named, ""));
            names.entry(number).or_insert(name);
            current = if function.is_some() { number } else { current };
        } else if line.starts_with("calls=") {
            of_call = true;
        } else if line.starts_with(|c: char| c.is_ascii_digit() || "+-*".contains(c)) {
            let count = line.split(' ').nth(1).and_then(|count| count.parse::<u64>().ok());
            if !std::mem::take(&mut of_call) {
                *counts.entry(current).or_default() += count.unwrap_or(0);
            }
        }
    }
    counts.into_iter().map(|(number, count)| (names.get(number).unwrap_or(&number).to_string(), count)).collect()
}
