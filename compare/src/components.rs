//! Components by reachability.
use crate::plain::Plain;
use crate::relation::numbered;

/// Each state's component, numbered by first member, and how many there are.
pub fn components(model: &Plain) -> (Vec<usize>, usize) {
    let reached: Vec<Vec<bool>> = (0..model.size()).map(|s| reached_from(model, s)).collect();
    // the first state of the component that s is in
    let first = |s: usize| (0..=s).find(|&t| reached[s][t] && reached[t][s]);
    numbered((0..model.size()).map(first))
}

// The alike states that s reaches among alike states, s included. A move nowhere reaches nothing.
fn reached_from(model: &Plain, s: usize) -> Vec<bool> {
    let mut reached = vec![false; model.size()];
    let mut open = vec![s];
    reached[s] = true;
    while let Some(at) = open.pop() {
        for t in model.rows[at].iter().map(|&t| usize::from(t)) {
            if model.labels.get(t) == Some(&model.labels[s]) && !reached[t] {
                reached[t] = true;
                open.push(t);
            }
        }
    }
    reached
}
