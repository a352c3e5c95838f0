//! One call of the library each, compared with what the second implementation says.
use compare::components::components;
use compare::dice::Dice;
use compare::formulas::check;
use compare::lent::{Filling, Lent};
use compare::library::{self, Facts, Listed, Outcome, Room};
use compare::listing::listing;
use compare::plain::{Plain, Tables};
use compare::reading::{read, Rooms};
use compare::reducing::reduced;
use compare::relation::{settle, Settled};
use compare::survey::{gap, meaning, MOST_STATES};
use std::collections::BTreeMap;
use std::fmt;

/// How many calls of each kind ended in which way.
#[derive(Default)]
pub struct Tally(BTreeMap<(&'static str, &'static str, u8, u8), usize>);

impl Tally {
    pub fn count(&mut self, input: &'static str, call: &'static str, outcome: Outcome) {
        *self.0.entry((input, call, outcome.layer, outcome.cause)).or_default() += 1;
    }
}

impl fmt::Display for Tally {
    fn fmt(&self, f: &mut fmt::Formatter<'_>) -> fmt::Result {
        writeln!(f, "{:<28} {:<14} {:>5} {:>5} {:>8}", "input", "call", "layer", "cause", "calls")?;
        for ((input, call, layer, cause), count) in &self.0 {
            writeln!(f, "{input:<28} {call:<14} {layer:>5} {cause:>5} {count:>8}")?;
        }
        writeln!(f, "{} calls compared", self.0.values().sum::<usize>())
    }
}

/// A difference, told in full.
pub struct Difference(String);

impl fmt::Display for Difference {
    fn fmt(&self, f: &mut fmt::Formatter<'_>) -> fmt::Result {
        f.write_str(&self.0)
    }
}

pub type Compared = Result<Outcome, Difference>;

/// What a call was made on, for the report of a difference.
struct Asked<'a> {
    call: &'static str,
    input: &'a dyn fmt::Debug,
    sizes: &'a dyn fmt::Debug,
}

impl Asked<'_> {
    fn same<T: PartialEq + fmt::Debug>(&self, what: &str, wanted: &T, found: &T) -> Result<(), Difference> {
        if wanted == found {
            return Ok(());
        }
        self.fail(&format!("{what}: wanted {wanted:?}, found {found:?}"))
    }

    fn written<T: Filling>(&self, what: &str, lent: &Lent<T>, front: &[T]) -> Result<(), Difference> {
        match lent.differs_from(front) {
            None => Ok(()),
            Some(place) => self.fail(&format!("{what} {place}; front wanted {front:?}")),
        }
    }

    fn fail(&self, how: &str) -> Result<(), Difference> {
        let Asked { call, input, sizes } = self;
        Err(Difference(format!("DIFFERENCE in {call}\n{how}\nlent {sizes:?}\ninput {input:?}")))
    }
}

/// A model that was merged, and what it came to.
pub struct Merged {
    pub model: Plain,
    pub settled: Settled,
}

impl Merged {
    /// The model settled, or why it is refused.
    pub fn of(model: Plain) -> Result<Merged, Outcome> {
        match gap(&model, 3) {
            Some(refused) => Err(refused),
            None => Ok(Merged { settled: settle(&model), model }),
        }
    }

    pub fn text(&self) -> Vec<u8> {
        listing(&self.model, &self.settled).into_bytes()
    }

    pub fn reduced(&self) -> Vec<u8> {
        reduced(&self.model, &self.settled).file()
    }
}

/// What a call is to write from a merged model, and how it refuses where there is no room.
#[derive(Clone, Copy)]
pub enum Job {
    Listing,
    Reduced,
}

impl Job {
    pub fn name(self) -> &'static str {
        match self {
            Job::Listing => "merge_file",
            Job::Reduced => "reduce_file",
        }
    }

    fn made_from(self, merged: &Merged) -> Vec<u8> {
        match self {
            Job::Listing => merged.text(),
            Job::Reduced => merged.reduced(),
        }
    }

    fn no_room(self) -> Outcome {
        let cause = match self {
            Job::Listing => 25,
            Job::Reduced => 42,
        };
        Outcome::refused(0, cause, 0, 0)
    }

    fn call(self, file: &[u8], room: Room<'_>, out: &mut [u8]) -> Outcome {
        match self {
            Job::Listing => library::merge_file(file, room, out),
            Job::Reduced => library::reduce_file(file, room, out),
        }
    }
}

/// What a job makes of a file: the tables that it loads, and what it writes or why it is refused.
pub struct Expected {
    loaded: Result<Tables, Outcome>,
    made: Result<Vec<u8>, Outcome>,
}

impl Expected {
    pub fn of(job: Job, file: &[u8], rooms: Rooms) -> Expected {
        match read(file, rooms) {
            Err(fault) => Expected { loaded: Err(fault.outcome()), made: Err(fault.outcome()) },
            Ok(model) => {
                Expected { loaded: Ok(model.tables()), made: Merged::of(model).map(|merged| job.made_from(&merged)) }
            }
        }
    }

    /// How much room the job takes, if it is not refused.
    pub fn length(&self) -> Option<usize> {
        self.made.as_ref().ok().map(Vec::len)
    }
}

fn answer(made: &Result<Vec<u8>, Outcome>, room: usize, no_room: Outcome) -> (Outcome, &[u8]) {
    match made {
        Err(refused) => (*refused, &[]),
        Ok(bytes) if bytes.len() > room => (no_room, &[]),
        Ok(bytes) => (Outcome::accepted(bytes.len()), bytes),
    }
}

/// Calls a job on a file with lent tables and a buffer of these sizes.
pub fn on_file(job: Job, file: &[u8], expected: &Expected, rooms: Rooms, out: usize, dice: &mut Dice) -> Compared {
    let mut labels = Lent::<Facts>::new(rooms.labels, dice);
    let mut offsets = Lent::<u32>::new(rooms.offsets, dice);
    let mut targets = Lent::<u16>::new(rooms.targets, dice);
    let mut buffer = Lent::<u8>::new(out, dice);
    let room = Room { labels: labels.space(), offsets: offsets.space(), targets: targets.space() };
    let found = job.call(file, room, buffer.space());

    let asked = Asked { call: job.name(), input: &file, sizes: &(rooms, out) };
    let (wanted, bytes) = answer(&expected.made, out, job.no_room());
    asked.same("answer", &wanted, &found)?;
    asked.written("buffer", &buffer, bytes)?;
    let none = Tables::default();
    let loaded = expected.loaded.as_ref().unwrap_or(&none);
    asked.written("labels", &labels, &loaded.labels)?;
    asked.written("offsets", &offsets, &loaded.offsets)?;
    asked.written("targets", &targets, &loaded.targets)?;
    Ok(found)
}

/// Merges a model by tables, with a buffer that is longer than the listing by `spare`, or shorter.
pub fn merge_tables(tables: Listed<'_>, spare: isize, dice: &mut Dice) -> Compared {
    let made = Merged::of(meaning(tables)).map(|merged| merged.text());
    let room = made.as_ref().map_or(64, |text| text.len().saturating_add_signed(spare));
    let mut text = Lent::<u8>::new(room, dice);
    let found = library::merge_tables(tables, text.space());

    let asked = Asked { call: "merge_tables", input: &tables, sizes: &room };
    let (wanted, bytes) = answer(&made, room, Job::Listing.no_room());
    asked.same("answer", &wanted, &found)?;
    asked.written("text", &text, bytes)?;
    Ok(found)
}

/// Checks a formula on a model by tables, with more marks than states by `spare`, or fewer.
pub fn check_tables(tables: Listed<'_>, steps: &[u16], spare: isize, dice: &mut Dice) -> Compared {
    let model = meaning(tables);
    let room = model.size().saturating_add_signed(spare);
    let mut marks = Lent::<u8>::new(room, dice);
    let found = library::check_tables(tables, steps, marks.space());

    let asked = Asked { call: "check_tables", input: &(tables, steps), sizes: &room };
    let (wanted, holds) = match check(&model, steps, room) {
        Ok(holds) => (Outcome::accepted(model.size()), holds),
        Err(refused) => (refused, vec![]),
    };
    asked.same("answer", &wanted, &found)?;
    let ones: Vec<u8> = holds.into_iter().map(u8::from).collect();
    asked.written("marks", &marks, &ones)?;
    Ok(found)
}

/// Finds the components of a model by tables. Cause 12 of what is answered here stands for too many states.
pub fn find_components(tables: Listed<'_>, dice: &mut Dice) -> Compared {
    let model = meaning(tables);
    let mut part = Lent::<u8>::new(MOST_STATES, dice);
    let space = part.space().try_into().expect("so many entries are lent");
    let found = library::components(tables, space);

    let asked = Asked { call: "components", input: &tables, sizes: &MOST_STATES };
    let refused = model.size() > MOST_STATES;
    let (numbers, count) = if refused { (vec![], 0) } else { components(&model) };
    let numbers: Vec<u8> = numbers.into_iter().map(|c| c as u8).collect();
    asked.same("count", &count, &found)?;
    asked.written("part", &part, &numbers)?;
    Ok(if refused { Outcome::refused(0, 12, 0, 0) } else { Outcome::accepted(count) })
}
