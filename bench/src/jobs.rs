//! The jobs that are measured: each engine on each input, and the answers that they must share.
use crate::bitsets;
use crate::classes;
use crate::inputs::{Input, Named};
use crate::matrices::Workspace;
use crate::tarjan;
use compare::library::{self, Facts, Listed, Outcome, Room};
use std::hint::black_box;

/// Who does a job.
#[derive(Clone, Copy, PartialEq, Eq, Debug)]
pub enum Engine {
    Library,
    Matrices,
    Rounds,
    Bitsets,
}

pub const ENGINES: [Engine; 4] = [Engine::Library, Engine::Matrices, Engine::Rounds, Engine::Bitsets];

/// The searches for components: the library's, the textbook's, and one with sets.
pub const SEARCHES: [fn(Listed<'_>, &mut [u8; 128]) -> usize; 3] =
    [library::components, tarjan::components, bitsets::components];

/// The memory that is lent: made and filled before anything is measured, and not cleared between the calls.
struct Memory {
    labels: Vec<Facts>,
    offsets: Vec<u32>,
    targets: Vec<u16>,
    text: Vec<u8>,
    work: Box<Workspace>,
}

impl Memory {
    fn new() -> Memory {
        Memory {
            labels: vec![Facts { bits: 0 }; 4_096],
            offsets: vec![0; 4_097],
            targets: vec![0; 32_767],
            text: vec![0; 2_048],
            work: Workspace::new(),
        }
    }

    fn same(&self, other: &Memory) -> bool {
        self.text == other.text
            && self.labels == other.labels
            && self.offsets == other.offsets
            && self.targets == other.targets
    }

    fn file(&mut self, engine: Engine, file: &[u8]) -> Outcome {
        let room = Room { labels: &mut self.labels, offsets: &mut self.offsets, targets: &mut self.targets };
        match engine {
            Engine::Library => library::merge_file(file, room, &mut self.text),
            Engine::Matrices => self.work.merge_file(file, room, &mut self.text),
            Engine::Rounds => bitsets::merge_file(classes::all_over, file, room, &mut self.text),
            Engine::Bitsets => bitsets::merge_file(classes::where_parted, file, room, &mut self.text),
        }
    }

    fn run(&mut self, engine: Engine, input: &Input) -> Outcome {
        match input {
            Input::Files(files) => files.iter().fold(Outcome::accepted(0), |_, file| self.file(engine, file)),
            Input::Tables(tables) => {
                let (model, text) = (tables.listed(), &mut self.text);
                match engine {
                    Engine::Library => library::merge_tables(model, text),
                    Engine::Matrices => self.work.merge_tables(model, text),
                    Engine::Rounds => bitsets::merge_tables(classes::all_over, model, text),
                    Engine::Bitsets => bitsets::merge_tables(classes::where_parted, model, text),
                }
            }
        }
    }
}

/// What is between its call and its return is measured; callgrind knows it by this name.
#[no_mangle]
#[inline(never)]
pub extern "C" fn measured_job(job: &mut Job<'_>) {
    (job.0)();
    black_box(&job.0);
}

/// A job to measure.
pub struct Job<'a>(&'a mut dyn FnMut());

/// Runs all jobs once each: on each input the engines in their order, and then the searches for components.
pub fn run_all(inputs: &[Named]) {
    let mut memory = Memory::new();
    for Named { input, tables, .. } in inputs {
        for engine in ENGINES {
            measured_job(&mut Job(&mut || _ = black_box(memory.run(engine, input))));
        }
        if let Some(tables) = tables {
            let mut part = [0; 128];
            let model = tables.listed();
            for search in SEARCHES {
                measured_job(&mut Job(&mut || _ = black_box(search(model, &mut part))));
            }
        }
    }
}

/// Panics where two engines do not answer or write the same.
pub fn assert_equal(inputs: &[Named]) {
    for Named { name, input, tables, .. } in inputs {
        let mut memories = ENGINES.map(|engine| (engine, Memory::new()));
        match input {
            Input::Files(files) => {
                files.iter().for_each(|file| same(name, &mut memories, |m, engine| m.file(engine, file)))
            }
            Input::Tables(_) => same(name, &mut memories, |memory, engine| memory.run(engine, input)),
        }
        if let Some(tables) = tables {
            let found = SEARCHES.map(|search| {
                let mut part = [0; 128];
                (search(tables.listed(), &mut part), part)
            });
            assert!(found.iter().all(|answer| *answer == found[0]), "the components differ on {name}");
        }
    }
}

// One call of each engine, with memory of its own.
fn same(name: &str, memories: &mut [(Engine, Memory)], call: impl Fn(&mut Memory, Engine) -> Outcome) {
    let outcomes: Vec<Outcome> = memories.iter_mut().map(|(engine, memory)| call(memory, *engine)).collect();
    for ((engine, memory), outcome) in memories.iter().zip(&outcomes) {
        let equal = *outcome == outcomes[0] && memory.same(&memories[0].1);
        assert!(equal, "{engine:?} differs from the library on {name}: {outcome:?}, {:?}", outcomes[0]);
    }
}
