//! The reduced model: one state for each class.
use crate::plain::Plain;
use crate::relation::{outlook, Settled};

/// The words of a class are those of its first member. It moves to each class in NEXT, and to itself where LOOP is yes.
pub fn reduced(model: &Plain, settled: &Settled) -> Plain {
    let first = |c: usize| settled.class.iter().position(|&of| of == c).expect("a class has a member");
    let row = |s: usize| {
        let mut look = outlook(model, &settled.class, s);
        look.next.extend(look.cyclic.then_some(settled.class[s]));
        look.next.into_iter().map(|c| c as u16).collect()
    };
    let firsts: Vec<usize> = (0..settled.classes).map(first).collect();
    Plain { labels: firsts.iter().map(|&s| model.labels[s]).collect(), rows: firsts.iter().map(|&s| row(s)).collect() }
}
