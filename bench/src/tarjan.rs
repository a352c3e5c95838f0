//! The textbook's search for components, over tables, among alike states.
use compare::library::Listed;

/// Each state's component and how many there are, numbered by first member.
#[derive(Clone, Copy)]
pub struct Parts {
    pub part: [u8; 128],
    pub count: usize,
}

struct Search<'a> {
    model: Listed<'a>,
    met: u8,
    // when a state was met, from 1; 0 for not yet
    index: [u8; 128],
    low: [u8; 128],
    on_stack: [bool; 128],
    stack: [u8; 128],
    height: usize,
    part: [u8; 128],
    count: u8,
}

impl Search<'_> {
    fn visit(&mut self, v: usize) {
        let Listed { labels, offsets, targets } = self.model;
        self.met += 1;
        self.index[v] = self.met;
        self.stack[self.height] = v as u8;
        self.height += 1;
        self.on_stack[v] = true;
        let own = labels[v];
        let mut low = self.met;
        for &t in &targets[offsets[v] as usize..offsets[v + 1] as usize] {
            let w = usize::from(t);
            if labels.get(w) != Some(&own) {
                continue;
            }
            if self.index[w] == 0 {
                self.visit(w);
                low = low.min(self.low[w]);
            } else if self.on_stack[w] {
                low = low.min(self.index[w]);
            }
        }
        self.low[v] = low;
        if low == self.index[v] {
            self.close(v);
        }
    }

    // Makes a component of the states down to v.
    fn close(&mut self, v: usize) {
        loop {
            self.height -= 1;
            let w = usize::from(self.stack[self.height]);
            self.on_stack[w] = false;
            self.part[w] = self.count;
            if w == v {
                break;
            }
        }
        self.count += 1;
    }
}

/// The components of a model by well-formed tables of at most 128 states.
pub fn search(model: Listed<'_>) -> Parts {
    let n = model.labels.len();
    let mut search = Search {
        model,
        met: 0,
        index: [0; 128],
        low: [0; 128],
        on_stack: [false; 128],
        stack: [0; 128],
        height: 0,
        part: [0; 128],
        count: 0,
    };
    for v in 0..n {
        if search.index[v] == 0 {
            search.visit(v);
        }
    }
    by_first_member(&search.part[..n])
}

/// The same groups, numbered by first member.
pub fn by_first_member(group: &[u8]) -> Parts {
    let mut given = [u8::MAX; 128];
    let mut part = [0; 128];
    let mut count = 0;
    for (number, &g) in part.iter_mut().zip(group) {
        let entry = &mut given[usize::from(g)];
        if *entry == u8::MAX {
            *entry = count;
            count += 1;
        }
        *number = *entry;
    }
    Parts { part, count: count.into() }
}

/// Writes each state's component, and answers how many there are.
pub fn components(model: Listed<'_>, part: &mut [u8; 128]) -> usize {
    let n = model.labels.len();
    let found = search(model);
    part[..n].copy_from_slice(&found.part[..n]);
    found.count
}
