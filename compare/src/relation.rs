//! The relations C_r by their definition: a partition of the states, refined round after round.
use crate::plain::Plain;
use std::collections::BTreeSet;

/// The classes of the settling round, numbered by first member, and how they came about.
#[derive(Clone, Debug, PartialEq, Eq)]
pub struct Settled {
    pub class: Vec<usize>,
    /// How many classes of alike states there are.
    pub labels: usize,
    pub rounds: usize,
    pub classes: usize,
}

/// What a round looks at in a state, all of it in classes of the round before.
#[derive(Clone, Debug, PartialEq, Eq)]
pub struct Outlook {
    /// The classes in NEXT.
    pub next: BTreeSet<usize>,
    /// LOOP.
    pub cyclic: bool,
}

/// Refines until a round parts nothing. The model has states, and all its moves go to states.
pub fn settle(model: &Plain) -> Settled {
    let (mut class, mut classes) = numbered(model.labels.iter());
    let labels = classes;
    for rounds in 1.. {
        let looks: Vec<Outlook> = (0..model.size()).map(|s| outlook(model, &class, s)).collect();
        let (finer, count) = numbered(class.iter().zip(looks.iter().map(|look| (&look.next, look.cyclic))));
        if count == classes {
            return Settled { class, labels, rounds, classes };
        }
        (class, classes) = (finer, count);
    }
    unreachable!("a round that parts nothing comes at last")
}

/// ST, by search among the states of one class, and NEXT and LOOP from it.
pub fn outlook(model: &Plain, class: &[usize], s: usize) -> Outlook {
    let own = class[s];
    let mut within = vec![false; model.size()];
    let mut open = vec![s];
    let mut next = BTreeSet::new();
    within[s] = true;
    while let Some(at) = open.pop() {
        for t in model.rows[at].iter().map(|&t| usize::from(t)) {
            if class[t] != own {
                next.insert(class[t]);
            } else if !within[t] {
                within[t] = true;
                open.push(t);
            }
        }
    }
    Outlook { next, cyclic: holds_cycle(model, within) }
}

// Whether these states hold a cycle: taking away a state with no move among them, again and again, leaves some.
fn holds_cycle(model: &Plain, mut within: Vec<bool>) -> bool {
    loop {
        let ends: Vec<usize> = (0..within.len())
            .filter(|&s| within[s] && !model.rows[s].iter().any(|&t| within[usize::from(t)]))
            .collect();
        if ends.is_empty() {
            return within.contains(&true);
        }
        ends.into_iter().for_each(|s| within[s] = false);
    }
}

/// Numbers equal keys alike, by first member, and counts them.
pub fn numbered<K: PartialEq>(keys: impl Iterator<Item = K>) -> (Vec<usize>, usize) {
    let mut seen: Vec<K> = Vec::new();
    let mut numbers = Vec::new();
    for key in keys {
        let number = seen.iter().position(|k| *k == key).unwrap_or_else(|| {
            seen.push(key);
            seen.len() - 1
        });
        numbers.push(number);
    }
    (numbers, seen.len())
}
