//! The listing of a settled model.
use crate::components::components;
use crate::plain::Plain;
use crate::relation::Settled;
use std::fmt::Write;

pub fn listing(model: &Plain, settled: &Settled) -> String {
    let Settled { class, labels, rounds, classes } = settled;
    let (_, components) = components(model);
    let n = model.size();
    let mut text =
        format!("states {n}\ncomponents {components}\nlabels {labels}\nrounds {rounds}\nclasses {classes}\n");
    for (s, c) in class.iter().enumerate() {
        writeln!(text, "{s} {c}").expect("a string takes all text");
    }
    text
}
