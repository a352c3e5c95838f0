//! Groups of alike states, and their components.
use crate::bits::{each, lowest, several, Bits, MOST, ONE};
use compare::library::Facts;

/// The groups of alike states.
pub struct Groups {
    pub of_state: [u8; MOST],
    pub states: [Bits; MOST],
    pub count: usize,
}

/// Finds them by a table which has, by a hash of the label, the group of each label that was met, and 255 for none.
pub fn alike(labels: &[Facts]) -> Groups {
    let mut groups = Groups { of_state: [0; MOST], states: [0; MOST], count: 0 };
    let mut known = [0; MOST];
    let mut table = [u8::MAX; 256];
    for (s, &Facts { bits }) in labels.iter().enumerate() {
        let mut slot = (bits.wrapping_mul(0x9E37_79B9_7F4A_7C15) >> 56) as u8;
        let group = loop {
            let group = usize::from(table[usize::from(slot)]);
            if group >= MOST {
                table[usize::from(slot)] = groups.count as u8;
                known[groups.count] = bits;
                groups.count += 1;
                break groups.count - 1;
            }
            if known[group] == bits {
                break group;
            }
            slot = slot.wrapping_add(1);
        };
        groups.of_state[s] = group as u8;
        groups.states[group] |= ONE[s];
    }
    groups
}

/// A component: its states, and all that they move to.
#[derive(Clone, Copy, Default)]
pub struct Part {
    pub states: Bits,
    pub moves: Bits,
}

impl Part {
    fn or(self, other: Part) -> Part {
        Part { states: self.states | other.states, moves: self.moves | other.moves }
    }
}

/// The components of all groups. Those of one group follow each other, and each comes behind those that it moves to.
pub struct Found {
    pub parts: [Part; MOST],
    pub of_state: [u8; MOST],
    // the components of each group
    pub of_group: [Bits; MOST],
    pub count: usize,
}

impl Found {
    fn push(&mut self, part: Part, group: usize) {
        self.parts[self.count] = part;
        self.of_group[group] |= ONE[self.count];
        each(part.states).for_each(|s| self.of_state[s] = self.count as u8);
        self.count += 1;
    }
}

/// The components of alike states.
pub fn search(rows: &[Bits; MOST], groups: &Groups) -> Found {
    let mut found = Found { parts: [Part::default(); MOST], of_state: [0; MOST], of_group: [0; MOST], count: 0 };
    let mut path = [Part::default(); MOST];
    for (group, &states) in groups.states[..groups.count].iter().enumerate() {
        if several(states) {
            search_group(rows, states, group, &mut path, &mut found);
        } else {
            found.push(Part { states, moves: rows[lowest(states)] }, group);
        }
    }
    found
}

// A walk whose path is of sets: a move back into the path joins what lies between.
fn search_group(rows: &[Bits; MOST], group: Bits, number: usize, path: &mut [Part; MOST], found: &mut Found) {
    let mut height = 0;
    // not met yet, and not in a component yet
    let (mut unmet, mut open) = (group, group);
    while unmet != 0 {
        let first = lowest(unmet);
        let mut top = Part { states: ONE[first], moves: rows[first] };
        unmet &= !ONE[first];
        loop {
            let ahead = top.moves & open & !top.states;
            if ahead & !unmet != 0 {
                height -= 1;
                top = top.or(path[height]);
            } else if ahead != 0 {
                let next = lowest(ahead);
                path[height] = top;
                height += 1;
                top = Part { states: ONE[next], moves: rows[next] };
                unmet &= !ONE[next];
            } else {
                open &= !top.states;
                found.push(top, number);
                if height == 0 {
                    break;
                }
                height -= 1;
                top = path[height];
            }
        }
    }
}
