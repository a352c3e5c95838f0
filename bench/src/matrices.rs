//! The engine of byte matrices: the procedure on components, each step as it is described, until a round parts nothing.
use crate::listing::{self, Counts};
use crate::reading::load;
use crate::tarjan::{by_first_member, search, Parts};
use compare::library::{Listed, Outcome, Room};

const MOST: usize = 128;
// A column for LOOP, one for each class that a component may be in, and one for each that may lie ahead.
const COLUMNS: usize = 1 + 2 * MOST;

type Matrix = [[u8; MOST]; MOST];

/// The matrices and lists, of which a run uses the front.
pub struct Workspace {
    count: usize,
    inherent: [u8; MOST],
    cyclic: [u8; MOST],
    // which components are related, and the number of each one's class
    related: Matrix,
    class: [u8; MOST],
    classes: usize,
    edges: Matrix,
    reach: Matrix,
    before: Matrix,
    // how many components in reach of the one move to the other, which is not related to it
    witnesses: Matrix,
    inside: Vec<Vec<u8>>,
    outside: Vec<Vec<u8>>,
    looks: Box<[[u8; COLUMNS]; MOST]>,
    order: Vec<u8>,
}

fn lists() -> Vec<Vec<u8>> {
    (0..MOST).map(|_| Vec::with_capacity(MOST)).collect()
}

impl Workspace {
    pub fn new() -> Box<Workspace> {
        Box::new(Workspace {
            count: 0,
            inherent: [0; MOST],
            cyclic: [0; MOST],
            related: [[0; MOST]; MOST],
            class: [0; MOST],
            classes: 0,
            edges: [[0; MOST]; MOST],
            reach: [[0; MOST]; MOST],
            before: [[0; MOST]; MOST],
            witnesses: [[0; MOST]; MOST],
            inside: lists(),
            outside: lists(),
            looks: Box::new([[0; COLUMNS]; MOST]),
            order: Vec::with_capacity(MOST),
        })
    }

    /// Merges the model of a file.
    pub fn merge_file(&mut self, file: &[u8], mut room: Room<'_>, text: &mut [u8]) -> Outcome {
        match load(file, &mut room, |_, _| {}) {
            Err(fault) => fault.outcome(),
            Ok(loaded) => {
                let model = Listed {
                    labels: &room.labels[..loaded.states],
                    offsets: &room.offsets[..=loaded.states],
                    targets: &room.targets[..loaded.moves],
                };
                self.merge_tables(model, text)
            }
        }
    }

    /// Merges a model by well-formed tables.
    pub fn merge_tables(&mut self, model: Listed<'_>, text: &mut [u8]) -> Outcome {
        if let Some(refused) = gap(model) {
            return refused;
        }
        let n = model.labels.len();
        let parts = search(model);
        self.begin(model, &parts);
        self.number_classes();
        let labels = self.classes;
        let rounds = self.settle();
        let mut class = [0; MOST];
        class.iter_mut().zip(&parts.part[..n]).for_each(|(class, &k)| *class = self.class[usize::from(k)]);
        let numbered = by_first_member(&class[..n]);
        let counts = Counts { states: n, components: parts.count, labels, rounds, classes: self.classes };
        listing::write(counts, &numbered.part[..n], text)
    }

    fn begin(&mut self, model: Listed<'_>, parts: &Parts) {
        self.count = parts.count;
        let k = self.count;
        self.inherent[..k].fill(0);
        self.edges[..k].iter_mut().for_each(|row| row[..k].fill(0));
        self.witnesses[..k].iter_mut().for_each(|row| row[..k].fill(0));
        self.relate(model, parts);
        self.draw_edges(model, parts);
        self.list_edges();
        for i in 0..k {
            self.reach[i][..k].fill(0);
            self.go(i, i);
        }
        for i in 0..k {
            for p in 0..k {
                if self.reach[i][p] == 1 {
                    self.outside[p].iter().for_each(|&t| self.witnesses[i][usize::from(t)] += 1);
                }
            }
        }
    }

    // Components are related at first where their states are alike.
    fn relate(&mut self, model: Listed<'_>, parts: &Parts) {
        let k = self.count;
        let mut label = [0; MOST];
        model.labels.iter().zip(&parts.part).for_each(|(facts, &k)| label[usize::from(k)] = facts.bits);
        for (row, own) in self.related[..k].iter_mut().zip(label) {
            row[..k].iter_mut().zip(label).for_each(|(entry, other)| *entry = u8::from(own == other));
        }
    }

    fn draw_edges(&mut self, model: Listed<'_>, parts: &Parts) {
        for (s, ends) in model.offsets.windows(2).enumerate() {
            let i = usize::from(parts.part[s]);
            for &t in &model.targets[ends[0] as usize..ends[1] as usize] {
                let p = usize::from(parts.part[usize::from(t)]);
                if i == p {
                    // a component with more states has a move inside too
                    self.inherent[i] = 1;
                } else {
                    self.edges[i][p] = 1;
                }
            }
        }
    }

    fn list_edges(&mut self) {
        let k = self.count;
        for i in 0..k {
            self.inside[i].clear();
            self.outside[i].clear();
            for p in 0..k {
                if self.edges[i][p] == 1 {
                    let list = if self.related[i][p] == 1 { &mut self.inside } else { &mut self.outside };
                    list[i].push(p as u8);
                }
            }
        }
    }

    // A depth-first walk from i among related components.
    fn go(&mut self, i: usize, at: usize) {
        self.reach[i][at] = 1;
        for next in 0..self.inside[at].len() {
            let p = usize::from(self.inside[at][next]);
            if self.reach[i][p] == 0 {
                self.go(i, p);
            }
        }
    }

    // Makes rounds until one parts nothing, and answers how many.
    fn settle(&mut self) -> usize {
        for rounds in 1.. {
            let classes = self.classes;
            self.set_loops();
            self.set_looks();
            self.sort_looks();
            self.before[..self.count].copy_from_slice(&self.reach[..self.count]);
            self.relate_anew();
            self.number_classes();
            if self.classes == classes {
                return rounds;
            }
            self.narrow_reach();
            self.count_witnesses();
            self.move_edges();
        }
        unreachable!("a round that parts nothing comes at last")
    }

    fn number_classes(&mut self) {
        let k = self.count;
        let mut marked = [false; MOST];
        self.classes = 0;
        for i in 0..k {
            if marked[i] {
                continue;
            }
            let row = self.related[i][..k].iter().zip(&mut marked).zip(&mut self.class);
            for ((&related, marked), class) in row {
                if related == 1 {
                    *marked = true;
                    *class = self.classes as u8;
                }
            }
            self.classes += 1;
        }
    }

    fn set_loops(&mut self) {
        let k = self.count;
        for i in 0..k {
            let turns =
                self.reach[i][..k].iter().zip(&self.inherent[..k]).any(|(&reached, &turns)| reached & turns == 1);
            self.cyclic[i] = u8::from(self.inherent[i] == 1 || turns);
        }
    }

    fn set_looks(&mut self) {
        let k = self.count;
        for i in 0..k {
            let look = &mut self.looks[i][..1 + 2 * k];
            look.fill(0);
            look[0] = self.cyclic[i];
            look[1 + usize::from(self.class[i])] = 1;
            for (p, &witnesses) in self.witnesses[i][..k].iter().enumerate() {
                if witnesses > 0 {
                    look[1 + k + usize::from(self.class[p])] = 1;
                }
            }
        }
    }

    // A bucket sort of the rows, column by column from the last.
    fn sort_looks(&mut self) {
        let k = self.count;
        let mut ones = Vec::with_capacity(MOST);
        self.order.clear();
        self.order.extend(0..k as u8);
        for column in (0..1 + 2 * k).rev() {
            ones.clear();
            let looks = &self.looks;
            self.order.retain(|&i| {
                let one = looks[usize::from(i)][column] == 1;
                if one {
                    ones.push(i);
                }
                !one
            });
            self.order.extend_from_slice(&ones);
        }
    }

    // Components with equal rows, which follow each other now, are related.
    fn relate_anew(&mut self) {
        let k = self.count;
        self.related[..k].iter_mut().for_each(|row| row[..k].fill(0));
        let looks = &self.looks;
        let alike = |a: &u8, b: &u8| looks[usize::from(*a)][..1 + 2 * k] == looks[usize::from(*b)][..1 + 2 * k];
        for class in self.order.chunk_by(alike) {
            for &q in class {
                class.iter().for_each(|&r| self.related[usize::from(q)][usize::from(r)] = 1);
            }
        }
    }

    fn narrow_reach(&mut self) {
        let k = self.count;
        for i in 0..k {
            let both = self.related[i][..k].iter().zip(&self.before[i][..k]);
            self.reach[i][..k].iter_mut().zip(both).for_each(|(reach, (related, before))| *reach = related & before);
        }
    }

    fn count_witnesses(&mut self) {
        let k = self.count;
        let reached_by: Vec<Vec<u8>> =
            (0..k).map(|p| (0..k as u8).filter(|&i| self.reach[usize::from(i)][p] == 1).collect()).collect();
        for i in 0..k {
            for p in i + 1..k {
                self.lose(i, p, &reached_by);
                self.lose(p, i, &reached_by);
            }
        }
    }

    // What changes where p is no longer in reach of i.
    fn lose(&mut self, i: usize, p: usize, reached_by: &[Vec<u8>]) {
        if self.before[i][p] == 1 && self.reach[i][p] == 0 {
            self.outside[p].iter().for_each(|&t| self.witnesses[i][usize::from(t)] -= 1);
            if self.edges[i][p] == 1 {
                reached_by[i].iter().for_each(|&t| self.witnesses[usize::from(t)][p] += 1);
            }
        }
    }

    // A move between components that are no longer related leads outside.
    fn move_edges(&mut self) {
        let lists = self.inside.iter_mut().zip(&mut self.outside).zip(&self.related);
        for ((inside, outside), related) in lists.take(self.count) {
            inside.retain(|&p| {
                let stays = related[usize::from(p)] == 1;
                if !stays {
                    outside.push(p);
                }
                stays
            });
        }
    }
}

fn gap(model: Listed<'_>) -> Option<Outcome> {
    let n = model.labels.len();
    if n == 0 || n > MOST {
        return Some(Outcome::refused(3, if n == 0 { 11 } else { 12 }, 0, 0));
    }
    model.offsets.windows(2).enumerate().find_map(|(s, ends)| {
        let row = &model.targets[ends[0] as usize..ends[1] as usize];
        if row.is_empty() {
            return Some(Outcome::refused(3, 15, s, 0));
        }
        let nowhere = row.iter().position(|&t| usize::from(t) >= n)?;
        Some(Outcome::refused(3, 14, s, nowhere as u16))
    })
}
