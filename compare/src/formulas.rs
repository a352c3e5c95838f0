//! Formulas, and the states where they are true, by search along the moves.
use crate::library::Outcome;
use crate::plain::Plain;
use crate::survey::gap;

/// How many words a model by tables has.
const WORDS: u16 = 64;
const MOST_STEPS: usize = 64;

pub const TRUE: u16 = 256;
pub const NOT: u16 = 257;
pub const OR: u16 = 258;
pub const UNTIL: u16 = 259;
pub const GLOBALLY: u16 = 260;

/// How many operands a step takes.
pub fn operands(step: u16) -> usize {
    match step {
        NOT | GLOBALLY => 1,
        OR | UNTIL => 2,
        _ => 0,
    }
}

/// The states where the formula is true that the steps denote, or why the check is refused.
pub fn check(model: &Plain, steps: &[u16], marks: usize) -> Result<Vec<bool>, Outcome> {
    if let Some(refused) = gap(model, 0) {
        return Err(refused);
    }
    well_formed(steps)?;
    if marks < model.size() {
        return Err(Outcome::refused(0, 35, 0, 0));
    }
    let mut stack: Vec<Vec<bool>> = Vec::new();
    for &step in steps {
        let rest = stack.len() - operands(step);
        let of = stack.split_off(rest);
        stack.push(truth(model, step, &of));
    }
    Ok(stack.remove(0))
}

fn well_formed(steps: &[u16]) -> Result<(), Outcome> {
    if steps.is_empty() || steps.len() > MOST_STEPS {
        return Err(Outcome::refused(0, 31, 0, 0));
    }
    let mut height = 0;
    for (i, &step) in steps.iter().enumerate() {
        if !(TRUE..=GLOBALLY).contains(&step) && step >= WORDS {
            return Err(Outcome::refused(0, 34, i, 0));
        }
        if height < operands(step) {
            return Err(Outcome::refused(0, 32, i, 0));
        }
        height = height - operands(step) + 1;
    }
    if height == 1 {
        Ok(())
    } else {
        Err(Outcome::refused(0, 33, 0, 0))
    }
}

// Where the formula is true that ends in this step, and `of` says so of its operands.
fn truth(model: &Plain, step: u16, of: &[Vec<bool>]) -> Vec<bool> {
    let states = 0..model.size();
    match step {
        TRUE => states.map(|_| true).collect(),
        NOT => states.map(|s| !of[0][s]).collect(),
        OR => states.map(|s| of[0][s] || of[1][s]).collect(),
        UNTIL => states.map(|s| of[1][s] || by_way(model, &of[0], s).into_iter().any(|t| of[1][t])).collect(),
        GLOBALLY => for_ever(model, &of[0]),
        word => states.map(|s| model.labels[s] >> word & 1 == 1).collect(),
    }
}

// The states from which some endless path stays where `along` is yes: it comes to a state that it can come back to.
fn for_ever(model: &Plain, along: &[bool]) -> Vec<bool> {
    let states = 0..model.size();
    let turns: Vec<bool> = states.clone().map(|t| along[t] && by_way(model, along, t).contains(&t)).collect();
    states.map(|s| along[s] && (turns[s] || by_way(model, along, s).into_iter().any(|t| turns[t]))).collect()
}

// Each state that ends a path of one move or more from s, where `along` is yes at every earlier state of the path.
fn by_way(model: &Plain, along: &[bool], s: usize) -> Vec<usize> {
    let mut met = vec![false; model.size()];
    let mut open = vec![s];
    while let Some(at) = open.pop() {
        if !along[at] {
            continue;
        }
        for t in model.rows[at].iter().map(|&t| usize::from(t)) {
            if !met[t] {
                met[t] = true;
                open.push(t);
            }
        }
    }
    (0..model.size()).filter(|&t| met[t]).collect()
}
