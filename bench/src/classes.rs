//! Classes, and the rounds that part them by signatures.
use crate::bits::{each, lowest, several, Bits, MOST, ONE};
use crate::walk::{Found, Groups, Part};

/// The classes. Those that a parting makes get new numbers, and one part keeps the old.
pub struct Classes {
    pub of_state: [u8; MOST],
    states: [Bits; MOST],
    parts: [Bits; MOST],
    pub count: usize,
    // of each component: the classes in NEXT, and its own where LOOP is yes; one for all of a class
    signature: [Bits; MOST],
    // of each class: the components whose signature is other than before
    other: [Bits; MOST],
}

impl Classes {
    /// The classes of alike states, at first.
    pub fn of(groups: Groups, found: &Found) -> Classes {
        Classes {
            of_state: groups.of_state,
            states: groups.states,
            parts: found.of_group,
            count: groups.count,
            signature: [0; MOST],
            other: [0; MOST],
        }
    }

    // The components of classes that have several.
    fn shared(&self) -> Bits {
        self.parts[..self.count].iter().filter(|&&parts| several(parts)).fold(0, |all, parts| all | parts)
    }

    #[inline(always)]
    fn class_of(&self, part: Part) -> usize {
        usize::from(self.of_state[lowest(part.states)]) % MOST
    }

    // The classes of these states.
    #[inline(always)]
    fn classes_of(&self, mut states: Bits) -> Bits {
        let mut classes = 0;
        while states != 0 {
            let c = usize::from(self.of_state[lowest(states)]) % MOST;
            classes |= ONE[c];
            states &= !self.states[c];
        }
        classes
    }

    // The signature of a component of class c, where those that it moves to inside have theirs.
    #[inline(always)]
    fn look(&self, found: &Found, c: usize, part: Part) -> Bits {
        let own = self.states[c];
        let mut all = self.classes_of(part.moves & !own);
        if part.moves & part.states != 0 {
            all |= ONE[c];
        }
        let mut inside = part.moves & own & !part.states;
        while inside != 0 {
            let k = usize::from(found.of_state[lowest(inside)]) % MOST;
            all |= self.signature[k];
            inside &= !found.parts[k].states;
        }
        all
    }

    // Looks again at these components of class c, and at those that see one whose signature is other than before.
    // Answers those whose signature is.
    fn look_again(&mut self, found: &Found, movers: &[Bits; MOST], c: usize, these: Bits) -> Bits {
        let mut left = these;
        let mut other = 0;
        while left != 0 {
            let k = lowest(left);
            let seen = self.look(found, c, found.parts[k]);
            if seen != self.signature[k] {
                self.signature[k] = seen;
                other |= ONE[k];
                left |= movers[k] & self.parts[c];
            }
            left &= !ONE[k];
        }
        other
    }

    // Parts class c by its signatures. Answers the components that moved.
    fn part(&mut self, found: &Found, c: usize) -> Bits {
        let mut rest = self.other[c];
        let mut keeps = self.parts[c] & !rest;
        let mut moved = 0;
        while rest != 0 {
            let signature = self.signature[lowest(rest)];
            let mut like = rest;
            for k in each(rest) {
                if self.signature[k] != signature {
                    like &= !ONE[k];
                }
            }
            rest &= !like;
            let gone = if keeps.count_ones() < like.count_ones() { std::mem::replace(&mut keeps, like) } else { like };
            if gone != 0 {
                self.split_off(found, c, gone);
                moved |= gone;
            }
        }
        moved
    }

    // Makes a class of these components of class c.
    fn split_off(&mut self, found: &Found, c: usize, parts: Bits) {
        let new = self.count % MOST;
        let mut states = 0;
        for k in each(parts) {
            states |= found.parts[k].states;
        }
        for s in each(states) {
            self.of_state[s] = new as u8;
        }
        self.states[new] = states;
        self.states[c] &= !states;
        self.parts[new] = parts;
        self.parts[c] &= !parts;
        self.count += 1;
    }
}

/// Makes rounds until one parts nothing. Each looks only where a signature may be other than before.
pub fn where_parted(classes: &mut Classes, found: &Found) -> usize {
    let mut movers = [0; MOST];
    let mut shared = classes.shared();
    let mut look = shared;
    for rounds in 1.. {
        let moved = round(classes, found, &movers, look);
        if moved == 0 {
            return rounds;
        }
        if rounds == 1 {
            shared = classes.shared();
            movers_to(&mut movers, found, shared);
        }
        look = shared & each(moved).fold(moved, |look, k| look | movers[k]);
    }
    unreachable!("a round that parts nothing comes at last")
}

/// Makes rounds until one parts nothing. Each looks at all components whose class has several.
pub fn all_over(classes: &mut Classes, found: &Found) -> usize {
    let movers = [0; MOST];
    for rounds in 1.. {
        let look = classes.shared();
        if round(classes, found, &movers, look) == 0 {
            return rounds;
        }
    }
    unreachable!("a round that parts nothing comes at last")
}

// For each component, which of these move to it.
fn movers_to(movers: &mut [Bits; MOST], found: &Found, these: Bits) {
    for k in each(these) {
        let mut ahead = found.parts[k].moves & !found.parts[k].states;
        while ahead != 0 {
            let l = usize::from(found.of_state[lowest(ahead)]) % MOST;
            movers[l] |= ONE[k];
            ahead &= !found.parts[l].states;
        }
    }
}

// One round, in which no signature is other than before but of these components and what sees them.
// Answers the components that get other classes.
fn round(classes: &mut Classes, found: &Found, movers: &[Bits; MOST], look: Bits) -> Bits {
    let mut left = look;
    let mut parted = 0;
    while left != 0 {
        let c = classes.class_of(found.parts[lowest(left)]);
        let own = classes.parts[c];
        if several(own) {
            classes.other[c] = classes.look_again(found, movers, c, left & own);
            if classes.other[c] != 0 {
                parted |= ONE[c];
            }
        }
        left &= !own;
    }
    each(parted).fold(0, |moved, c| moved | classes.part(found, c))
}
