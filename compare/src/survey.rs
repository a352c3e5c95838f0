//! What a model by tables means, and what it lacks.
use crate::library::{Listed, Outcome};
use crate::plain::Plain;

const MOST_LISTED: usize = 4_096;
/// The most states that are worked on.
pub const MOST_STATES: usize = 128;

/// The model that any tables mean. A target that is no state stays in its row: it goes nowhere.
pub fn meaning(tables: Listed<'_>) -> Plain {
    let n = tables.labels.len();
    if n > MOST_LISTED || tables.offsets.len() != n + 1 {
        return Plain::default();
    }
    let row = |ends: &[u32]| {
        let row = tables.targets.get(ends[0] as usize..ends[1] as usize);
        row.filter(|row| row.len() <= MOST_LISTED).unwrap_or_default().to_vec()
    };
    Plain {
        labels: tables.labels.iter().map(|facts| facts.bits).collect(),
        rows: tables.offsets.windows(2).map(row).collect(),
    }
}

/// Why a model is refused, in the layer that the caller gives.
pub fn gap(model: &Plain, layer: u8) -> Option<Outcome> {
    match model.size() {
        0 => return Some(Outcome::refused(layer, 11, 0, 0)),
        n if n > MOST_STATES => return Some(Outcome::refused(layer, 12, 0, 0)),
        _ => {}
    }
    model.rows.iter().enumerate().find_map(|(s, row)| {
        if row.is_empty() {
            return Some(Outcome::refused(layer, 15, s, 0));
        }
        let nowhere = row.iter().position(|&t| usize::from(t) >= model.size())?;
        Some(Outcome::refused(layer, 14, s, nowhere as u16))
    })
}
