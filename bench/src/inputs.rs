//! The inputs that engines are measured on.
use compare::dice::Dice;
use compare::generate;
use compare::plain::{Plain, Tables};

const SEED: u64 = 7;

/// One input: files one after the other, or a model by tables.
pub enum Input {
    Files(Vec<Vec<u8>>),
    Tables(Tables),
}

/// An input with its name, and its tables where the component search is measured on it too.
pub struct Named {
    pub name: String,
    /// Inputs of one family follow each other, each of twice as many states as the one before.
    pub family: Option<&'static str>,
    pub input: Input,
    pub tables: Option<Tables>,
}

impl Named {
    fn file(name: String, family: Option<&'static str>, model: &Plain) -> Named {
        Named { name, family, input: Input::Files(vec![model.file()]), tables: Some(model.tables()) }
    }
}

/// All inputs, the same in each run.
pub fn all() -> Vec<Named> {
    let sizes = [16, 32, 64, 128];
    let chains = sizes.map(|n| Named::file(format!("chain of {n}"), Some("chain"), &chain(n)));
    let growing = sizes.map(|n| Named::file(format!("random {n}, 3 moves, 1 word"), Some("random"), &random(n, 3, 1)));
    let others = [(3, 64), (16, 1), (16, 64), (128, 1), (128, 64)];
    let random = others.map(|(moves, words)| {
        let name = format!("random 128, {moves} moves, {words} word{}", if words == 1 { "" } else { "s" });
        Named::file(name, None, &random(128, moves, words))
    });
    chains.into_iter().chain(growing).chain(random).chain([mixed(), long_rows()]).collect()
}

// The slowest chain: a round parts one state.
fn chain(size: usize) -> Plain {
    Plain {
        labels: (0..size).map(|s| (s + 1) as u64 % 2).collect(),
        rows: (0..size).map(|s| vec![s.saturating_sub(1) as u16]).collect(),
    }
}

fn random(size: usize, moves: usize, words: usize) -> Plain {
    let mut dice = Dice::new(SEED + (size * 1_000 + moves * 100 + words) as u64);
    let labels = (0..size).map(|_| dice.number() >> (64 - words)).collect();
    let rows = (0..size).map(|_| distinct(&mut dice, moves.min(size), size)).collect();
    Plain { labels, rows }
}

// So many states, rising.
fn distinct(dice: &mut Dice, count: usize, size: usize) -> Vec<u16> {
    let mut all: Vec<u16> = (0..size as u16).collect();
    for i in 0..count {
        all.swap(i, i + dice.below(size - i));
    }
    all.truncate(count);
    all.sort_unstable();
    all
}

// Ten thousand files of 1 to 128 states, most of them small, of which some lack a move.
fn mixed() -> Named {
    let mut dice = Dice::new(SEED);
    let files = (0..10_000).map(|_| {
        let size = match dice.below(40) {
            0 => dice.within(100, 128),
            1..=3 => dice.within(20, 100),
            4..=16 => dice.within(6, 20),
            _ => dice.within(1, 6),
        };
        generate::model(&mut dice, size, 50).file()
    });
    Named { family: None, name: "10,000 mixed files".into(), input: Input::Files(files.collect()), tables: None }
}

// Rows of 4,096 moves, which only tables can have.
fn long_rows() -> Named {
    let mut dice = Dice::new(SEED);
    let labels = (0..128).map(|_| dice.number() & 1).collect();
    let rows = (0..128).map(|_| (0..4_096).map(|_| dice.below(128) as u16).collect()).collect();
    let tables = Plain { labels, rows }.tables();
    Named {
        family: None,
        name: "rows of 4,096 moves".into(),
        input: Input::Tables(tables.clone()),
        tables: Some(tables),
    }
}
