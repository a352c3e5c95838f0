//! Two engines of bit sets. Both refine signatures round after round: one all of them, and the other only those that see
//! something which was parted in the round before.
use crate::bits::{Bits, MOST, ONE};
use crate::classes::Classes;
use crate::listing::{self, Counts};
use crate::reading::load;
use crate::tarjan::by_first_member;
use crate::walk::{alike, search, Found};
use compare::library::{Facts, Listed, Outcome, Room};

/// How the rounds are made: which answers how many there were.
pub type Rounds = fn(&mut Classes, &Found) -> usize;

/// Merges the model of a file.
pub fn merge_file(rounds: Rounds, file: &[u8], mut room: Room<'_>, text: &mut [u8]) -> Outcome {
    let mut rows = [0; MOST];
    let loaded = load(file, &mut room, |s, row| rows[s] = row_bits(row));
    match loaded {
        Err(fault) => fault.outcome(),
        Ok(loaded) if loaded.states > MOST => Outcome::refused(3, 12, 0, 0),
        Ok(loaded) => {
            let n = loaded.states;
            match rows[..n].iter().position(|&row| row == 0) {
                Some(s) => Outcome::refused(3, 15, s, 0),
                None => merge(rounds, &room.labels[..n], &rows, text),
            }
        }
    }
}

// The set of rising targets: the low half ends where they come to 64.
#[inline(always)]
fn row_bits(row: &[u8]) -> Bits {
    let half = |part: &[u8]| part.iter().fold(0, |bits: u64, &t| bits | 1 << (t & 63));
    let middle = row.iter().position(|&t| t >= 64).unwrap_or(row.len());
    let (low, high) = row.split_at(middle);
    Bits::from(half(high)) << 64 | Bits::from(half(low))
}

/// Merges a model by well-formed tables.
pub fn merge_tables(rounds: Rounds, model: Listed<'_>, text: &mut [u8]) -> Outcome {
    let Listed { labels, offsets, targets } = model;
    let n = labels.len();
    if n == 0 || n > MOST {
        return Outcome::refused(3, if n == 0 { 11 } else { 12 }, 0, 0);
    }
    let mut rows = [0; MOST];
    for (s, ends) in offsets.windows(2).enumerate() {
        let row = &targets[ends[0] as usize..ends[1] as usize];
        if row.is_empty() {
            return Outcome::refused(3, 15, s, 0);
        }
        let highest = row.iter().fold(0, |highest, &t| highest.max(t));
        if usize::from(highest) >= n {
            let number = row.iter().position(|&t| usize::from(t) >= n).unwrap_or(0);
            return Outcome::refused(3, 14, s, number as u16);
        }
        rows[s] = target_bits(row);
    }
    merge(rounds, labels, &rows, text)
}

#[inline(always)]
fn target_bits(row: &[u16]) -> Bits {
    row.iter().fold(0, |bits, &t| bits | ONE[usize::from(t) % MOST])
}

/// Writes each state's component, of a model by well-formed tables whose moves all go to states, and answers how many
/// there are.
pub fn components(model: Listed<'_>, part: &mut [u8; MOST]) -> usize {
    let Listed { labels, offsets, targets } = model;
    let mut rows = [0; MOST];
    for (row, ends) in rows.iter_mut().zip(offsets.windows(2)) {
        *row = target_bits(&targets[ends[0] as usize..ends[1] as usize]);
    }
    let found = search(&rows, &alike(labels));
    let numbered = by_first_member(&found.of_state[..labels.len()]);
    part[..labels.len()].copy_from_slice(&numbered.part[..labels.len()]);
    numbered.count
}

fn merge(rounds: Rounds, labels: &[Facts], rows: &[Bits; MOST], text: &mut [u8]) -> Outcome {
    let n = labels.len();
    let groups = alike(labels);
    let found = search(rows, &groups);
    let labels = groups.count;
    let mut classes = Classes::of(groups, &found);
    let rounds = rounds(&mut classes, &found);
    let numbered = by_first_member(&classes.of_state[..n]);
    let counts = Counts { states: n, components: found.count, labels, rounds, classes: classes.count };
    listing::write(counts, &numbered.part[..n], text)
}
