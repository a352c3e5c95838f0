//! What both implementations are tried on: models, files, tables and formulas, from a seeded generator.
use crate::dice::Dice;
use crate::formulas::{operands, GLOBALLY, NOT, OR, TRUE, UNTIL};
use crate::library::Facts;
use crate::plain::{put_number, Plain, Tables};

/// A model of so many states with rising rows, whose labels and moves are of a random style.
/// One in `gaps` has a state with no move; for 0 none has.
pub fn model(dice: &mut Dice, size: usize, gaps: usize) -> Plain {
    let labels = labels(dice, size);
    let style = dice.below(6);
    let mut rows: Vec<Vec<u16>> = (0..size).map(|s| row(dice, style, size, s)).collect();
    if gaps > 0 && dice.one_in(gaps) {
        rows[dice.below(size)].clear();
    }
    Plain { labels, rows }
}

fn labels(dice: &mut Dice, size: usize) -> Vec<u64> {
    let few = [1, 2, 2, 3, 5][dice.below(5)];
    let pool: Vec<u64> = (0..few).map(|_| word_set(dice)).collect();
    (0..size).map(|_| dice.pick(&pool)).collect()
}

// Sets of words, most of them short in a file.
fn word_set(dice: &mut Dice) -> u64 {
    let width = dice.pick(&[1, 1, 2, 7, 8, 14, 63, 64]);
    dice.number() >> (64 - width)
}

// A row that is not empty: few moves, many, all, or those of a ring, a chain or a tree.
fn row(dice: &mut Dice, style: usize, size: usize, s: usize) -> Vec<u16> {
    let targets: Vec<usize> = match style {
        0 => (0..dice.within(1, 3)).map(|_| dice.below(size)).collect(),
        1 => vec![(s + 1) % size],
        2 => vec![s.saturating_sub(1)],
        3 => (0..dice.within(1, 2)).map(|_| s + dice.below(size - s)).collect(),
        4 if size <= 128 => (0..size).filter(|&t| t == s || dice.one_in(2)).collect(),
        5 if size <= 24 || (size <= 128 && s.is_multiple_of(8)) => (0..size).collect(),
        _ => [s, s + dice.below(size - s)].to_vec(),
    };
    let mut row: Vec<u16> = targets.into_iter().map(|t| t as u16).collect();
    row.sort_unstable();
    row.dedup();
    row
}

/// All total models of so many states in which word 0 holds or not: rows are all sets of states that are not empty.
pub fn every_model(size: usize) -> impl Iterator<Item = Plain> {
    let sets = (1 << size) - 1;
    let label_choices = 1 << size;
    let row_choices = (0..size).fold(1, |choices, _| choices * sets);
    (0..label_choices).flat_map(move |label_bits: usize| {
        (0..row_choices).map(move |choice: usize| {
            let set_of = |s: usize| (0..s).fold(choice, |rest, _| rest / sets) % sets + 1;
            let row = |s: usize| (0..size).filter(|t| set_of(s) >> t & 1 == 1).map(|t| t as u16).collect();
            Plain {
                labels: (0..size).map(|s| (label_bits >> s & 1) as u64).collect(),
                rows: (0..size).map(row).collect(),
            }
        })
    })
}

/// A size, most often small.
pub fn size(dice: &mut Dice) -> usize {
    match dice.below(20) {
        0 => dice.within(100, 128),
        1..=3 => dice.within(20, 100),
        4..=8 => dice.within(6, 20),
        _ => dice.within(1, 6),
    }
}

/// A file that differs from a valid one in few places.
pub fn damaged(dice: &mut Dice, file: &[u8]) -> Vec<u8> {
    let mut file = file.to_vec();
    for _ in 0..dice.pick(&[1, 1, 1, 2, 3]) {
        damage(dice, &mut file);
    }
    file
}

fn damage(dice: &mut Dice, file: &mut Vec<u8>) {
    let at = dice.below(file.len() + 1);
    let any = dice.number() as u8;
    let byte = dice.pick(&[0x00, 0x01, 0x7F, 0x80, 0x81, 0xFF, any]);
    match dice.below(5) {
        0 => file.truncate(at),
        1 if at < file.len() => file[at] = byte,
        2 if at < file.len() => drop(file.remove(at)),
        3 => file.push(byte),
        _ => file.insert(at, byte),
    }
}

/// A file in which one number is written in more bytes than it takes, or is at the edge of 2^64.
pub fn odd_number(dice: &mut Dice, file: &[u8]) -> Vec<u8> {
    let at = dice.below(file.len() + 1);
    let mut odd = file.to_vec();
    let mut number = Vec::new();
    put_number(&mut number, dice.number() >> dice.below(64));
    match dice.below(4) {
        0 => {
            if let Some(last) = number.last_mut() {
                *last |= 0x80;
            }
            number.resize(number.len() + dice.within(1, 3), 0x80);
            number.push(0);
        }
        1 => number = [vec![0xFF; 9], vec![dice.pick(&[0, 1, 2, 0x7F])]].concat(),
        2 => number = [vec![0x80; dice.within(8, 12)], vec![dice.pick(&[0, 1, 2])]].concat(),
        _ => {}
    }
    odd.splice(at..at, number);
    odd
}

/// A valid file of exactly so many bytes, of a model with many states: labels are made longer until it fits.
pub fn file_of_length(dice: &mut Dice, length: usize) -> Vec<u8> {
    let size = dice.within(2_900, 3_200);
    let mut model = Plain { labels: vec![0; size], rows: (0..size).map(|s| row(dice, 3, size, s)).collect() };
    let mut missing = length - model.file().len();
    for label in &mut model.labels {
        let more = missing.min(9);
        *label = 1 << (7 * more);
        missing -= more;
    }
    model.file()
}

/// Tables whose rows are in any order, with moves that come more than once.
pub fn shuffled(dice: &mut Dice, model: &Plain) -> Tables {
    let mut model = model.clone();
    for row in &mut model.rows {
        for i in (1..row.len()).rev() {
            row.swap(i, dice.below(i + 1));
        }
        if !row.is_empty() && dice.one_in(3) {
            row.extend_from_within(..dice.within(1, row.len()));
        }
    }
    model.tables()
}

/// Tables that do not fit each other, or have moves nowhere.
pub fn malformed(dice: &mut Dice, model: &Plain) -> Tables {
    let mut tables = shuffled(dice, model);
    for _ in 0..dice.within(1, 2) {
        spoil(dice, &mut tables);
    }
    tables
}

fn spoil(dice: &mut Dice, tables: &mut Tables) {
    let any = dice.pick(&[0, 1, tables.targets.len() as u32, tables.targets.len() as u32 + 1, u32::MAX, 4_097]);
    let nowhere = dice.pick(&[tables.labels.len() as u16, 127, 128, 129, 4_095, 4_096, 4_097, u16::MAX]);
    match dice.below(9) {
        0 if !tables.offsets.is_empty() => {
            let at = dice.below(tables.offsets.len());
            tables.offsets[at] = any;
        }
        1 if tables.offsets.len() > 1 => {
            let at = dice.within(1, tables.offsets.len() - 1);
            tables.offsets.swap(at - 1, at);
        }
        2 => tables.offsets.push(any),
        3 => drop(tables.offsets.pop()),
        4 => drop(tables.labels.pop()),
        5 => tables.labels.push(Facts { bits: 0 }),
        6 => drop(tables.targets.pop()),
        7 => tables.targets.truncate(tables.targets.len() / 2),
        _ if !tables.targets.is_empty() => {
            let at = dice.below(tables.targets.len());
            tables.targets[at] = nowhere;
        }
        _ => {}
    }
}

/// Tables with a row of `length` moves; a row has 4,096 at most.
pub fn long_row(dice: &mut Dice, length: usize) -> Tables {
    let size = dice.within(1, 8);
    let mut rows = vec![vec![0]; size];
    rows[dice.below(size)] = (0..length).map(|_| dice.below(size) as u16).collect();
    Plain { labels: labels(dice, size), rows }.tables()
}

/// Steps that denote a formula.
pub fn formula(dice: &mut Dice) -> Vec<u16> {
    let wanted = dice.pick(&[1, 2, 3, 4, 5, 8, 13, 30, 64]);
    let mut steps = Vec::new();
    let mut height = 0;
    for left in (0..wanted).rev() {
        let word = dice.pick(&[0, 1, 2, 6, 13, 63]);
        let mut choice = vec![NOT, GLOBALLY, OR, UNTIL, TRUE, word];
        // each step that is left takes at most one operand away
        choice.retain(|&step| operands(step) <= height && height - operands(step) <= left);
        let step = dice.pick(&choice);
        height = height - operands(step) + 1;
        steps.push(step);
    }
    steps
}

/// Steps that need not denote a formula.
pub fn any_steps(dice: &mut Dice) -> Vec<u16> {
    let mut steps = formula(dice);
    let number = dice.pick(&[63, 64, 65, 255, TRUE, NOT, OR, UNTIL, GLOBALLY, 261, 512, 0x8000, u16::MAX]);
    let at = dice.below(steps.len());
    match dice.below(7) {
        0 => steps[at] = number,
        1 => drop(steps.remove(at)),
        2 => steps.insert(at, number),
        3 => steps.truncate(at),
        4 => steps.resize(dice.pick(&[64, 65, 66, 256, 257, 1_000]), number),
        5 => steps.iter_mut().for_each(|step| *step = dice.within(0, 262) as u16),
        _ => steps.extend_from_within(..),
    }
    steps
}
