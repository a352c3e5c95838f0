//! The inputs of each kind, and the calls that are compared on them.
use crate::calls::{check_tables, find_components, merge_tables, on_file, Compared, Difference, Expected, Job, Tally};
use compare::dice::Dice;
use compare::generate;
use compare::library::Listed;
use compare::plain::{Plain, Tables};
use compare::reading::{Rooms, LONGEST_FILE};

/// Tables that take any file.
const AMPLE: Rooms = Rooms::fit(4_096, LONGEST_FILE);
/// Tables that take a model of a few states.
const SCANT: Rooms = Rooms { labels: 5, offsets: 5, targets: 4 };
const JOBS: [Job; 2] = [Job::Listing, Job::Reduced];

/// Compares on all inputs.
pub fn all(tally: &mut Tally, seed: u64) -> Result<(), Difference> {
    let mut run = Run { tally, dice: Dice::new(seed) };
    run.small_models()?;
    run.valid_files()?;
    run.short_files()?;
    run.damaged_files()?;
    run.large_files()?;
    run.edge_files()?;
    run.tables()?;
    run.malformed_tables()?;
    run.large_tables()?;
    run.formulas()?;
    run.malformed_formulas()
}

struct Run<'a> {
    tally: &'a mut Tally,
    dice: Dice,
}

impl Run<'_> {
    fn note(&mut self, input: &'static str, call: &'static str, compared: Compared) -> Result<(), Difference> {
        self.tally.count(input, call, compared?);
        Ok(())
    }

    // Both jobs on a file, with tables of these sizes and a buffer that is just long enough.
    fn file(&mut self, input: &'static str, file: &[u8], rooms: Rooms) -> Result<(), Difference> {
        for job in JOBS {
            let expected = Expected::of(job, file, rooms);
            let out = expected.length().unwrap_or(64);
            let compared = on_file(job, file, &expected, rooms, out, &mut self.dice);
            self.note(input, job.name(), compared)?;
        }
        Ok(())
    }

    // Both jobs on a file after damage to it.
    fn damaged(&mut self, input: &'static str, file: &[u8]) -> Result<(), Difference> {
        let damaged = generate::damaged(&mut self.dice, file);
        self.file(input, &damaged, AMPLE)
    }

    // Both jobs with a buffer that is longer, one entry too short, and empty.
    fn buffers(&mut self, input: &'static str, file: &[u8], rooms: Rooms) -> Result<(), Difference> {
        for job in JOBS {
            let expected = Expected::of(job, file, rooms);
            let out = expected.length().unwrap_or(64);
            for room in [out + 9, out - 1, 0] {
                let compared = on_file(job, file, &expected, rooms, room, &mut self.dice);
                self.note(input, job.name(), compared)?;
            }
        }
        Ok(())
    }

    // All models of at most three states with one word, to all calls.
    fn small_models(&mut self) -> Result<(), Difference> {
        for model in (1..=3).flat_map(generate::every_model) {
            self.file("every small model", &model.file(), AMPLE)?;
            self.by_tables("every small model", model.tables().listed())?;
        }
        Ok(())
    }

    // Valid files with tables and buffers that are ample, fit, and are one entry too short.
    fn valid_files(&mut self) -> Result<(), Difference> {
        for _ in 0..3_000 {
            let size = generate::size(&mut self.dice);
            let model = generate::model(&mut self.dice, size, 10);
            let file = model.file();
            let fit = Rooms::fit(size, model.moves());
            self.file("valid file", &file, fit)?;
            self.buffers("valid file, buffers", &file, AMPLE)?;
            for short in one_short(fit) {
                self.file("valid file, short tables", &file, short)?;
            }
        }
        Ok(())
    }

    // All files of at most five bytes from an alphabet of nine.
    fn short_files(&mut self) -> Result<(), Difference> {
        let alphabet = [0x00, 0x01, 0x02, 0x03, 0x04, 0x7F, 0x80, 0x81, 0xFF];
        let mut files: Vec<Vec<u8>> = vec![vec![]];
        for length in 0..=5 {
            let rooms = if length < 5 { AMPLE } else { SCANT };
            for file in &files {
                self.file("every short file", file, rooms)?;
            }
            if length < 5 {
                let longer = |file: &Vec<u8>| alphabet.map(|byte| [file.as_slice(), &[byte]].concat());
                files = files.iter().flat_map(longer).collect();
            }
        }
        Ok(())
    }

    fn damaged_files(&mut self) -> Result<(), Difference> {
        for _ in 0..20_000 {
            let size = generate::size(&mut self.dice).min(60);
            let file = generate::model(&mut self.dice, size, 0).file();
            self.damaged("damaged file", &file)?;
            let odd = generate::odd_number(&mut self.dice, &file);
            self.file("file with an odd number", &odd, AMPLE)?;
        }
        Ok(())
    }

    // Files of more than 128 states, whole and damaged.
    fn large_files(&mut self) -> Result<(), Difference> {
        for round in 0..200 {
            let size = if round % 4 == 0 { self.dice.within(127, 131) } else { self.dice.within(129, 4_096) };
            let model = generate::model(&mut self.dice, size, 4);
            let file = model.file();
            self.file("file of many states", &file, AMPLE)?;
            let fit = Rooms::fit(size, model.moves());
            for short in one_short(fit) {
                self.file("file of many states", &file, short)?;
            }
            self.damaged("file of many states, damaged", &file)?;
        }
        Ok(())
    }

    // Files as long as a file may be, and longer.
    fn edge_files(&mut self) -> Result<(), Difference> {
        for _ in 0..20 {
            let longest = generate::file_of_length(&mut self.dice, 32_767);
            self.file("file of 32,767 bytes", &longest, AMPLE)?;
            self.damaged("file of 32,767 bytes, damaged", &longest)?;
            let over = generate::file_of_length(&mut self.dice, 32_768);
            self.file("file of 32,768 bytes", &over, AMPLE)?;
            let size = generate::size(&mut self.dice);
            let mut padded = generate::model(&mut self.dice, size, 0).file();
            for length in [32_767, 32_768, 40_000] {
                padded.resize(length, 0);
                self.file("file with bytes left over", &padded, AMPLE)?;
            }
        }
        Ok(())
    }

    // A model by tables to all calls that take one.
    fn by_tables(&mut self, input: &'static str, tables: Listed<'_>) -> Result<(), Difference> {
        for spare in [0, 7, -1] {
            let compared = merge_tables(tables, spare, &mut self.dice);
            self.note(input, "merge_tables", compared)?;
        }
        let compared = find_components(tables, &mut self.dice);
        self.note(input, "components", compared)?;
        self.formula(input, tables)
    }

    fn formula(&mut self, input: &'static str, tables: Listed<'_>) -> Result<(), Difference> {
        let steps = generate::formula(&mut self.dice);
        for spare in [0, 5, -1] {
            let compared = check_tables(tables, &steps, spare, &mut self.dice);
            self.note(input, "check_tables", compared)?;
        }
        Ok(())
    }

    fn tables(&mut self) -> Result<(), Difference> {
        for _ in 0..4_000 {
            let model = self.model();
            let tables = generate::shuffled(&mut self.dice, &model);
            self.by_tables("tables", tables.listed())?;
        }
        Ok(())
    }

    fn malformed_tables(&mut self) -> Result<(), Difference> {
        for _ in 0..15_000 {
            let model = self.model();
            let tables = generate::malformed(&mut self.dice, &model);
            self.by_tables("malformed tables", tables.listed())?;
        }
        self.by_tables("malformed tables", Tables::default().listed())
    }

    // Many states, and rows as long as they may be and longer.
    fn large_tables(&mut self) -> Result<(), Difference> {
        for _ in 0..100 {
            let size = self.dice.pick(&[127, 128, 129, 1_000, 4_095, 4_096, 4_097, 5_000]);
            let tables = generate::model(&mut self.dice, size, 2).tables();
            self.by_tables("tables of many states", tables.listed())?;
            let length = self.dice.pick(&[4_000, 4_095, 4_096, 4_097, 5_000]);
            let tables = generate::long_row(&mut self.dice, length);
            self.by_tables("tables with a long row", tables.listed())?;
        }
        Ok(())
    }

    fn formulas(&mut self) -> Result<(), Difference> {
        for _ in 0..6_000 {
            let tables = self.model().tables();
            self.formula("formula", tables.listed())?;
        }
        Ok(())
    }

    fn malformed_formulas(&mut self) -> Result<(), Difference> {
        for _ in 0..20_000 {
            let size = self.dice.within(1, 6);
            let tables = generate::model(&mut self.dice, size, 10).tables();
            let steps = generate::any_steps(&mut self.dice);
            let compared = check_tables(tables.listed(), &steps, 0, &mut self.dice);
            self.note("malformed formula", "check_tables", compared)?;
        }
        Ok(())
    }

    fn model(&mut self) -> Plain {
        let size = generate::size(&mut self.dice);
        generate::model(&mut self.dice, size, 20)
    }
}

// The same sizes with each one entry too short.
fn one_short(fit: Rooms) -> impl Iterator<Item = Rooms> {
    let Rooms { labels, offsets, targets } = fit;
    let fewer = targets.checked_sub(1).map(|targets| Rooms { targets, ..fit });
    [Rooms { labels: labels - 1, ..fit }, Rooms { offsets: offsets - 1, ..fit }].into_iter().chain(fewer)
}
