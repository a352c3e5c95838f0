//! A Kripke model in plain vectors, and its file and tables.
use crate::library::{Facts, Listed};

/// Each state's words and its row of moves.
#[derive(Clone, Debug, Default, PartialEq, Eq)]
pub struct Plain {
    pub labels: Vec<u64>,
    pub rows: Vec<Vec<u16>>,
}

/// The tables of a model, well formed or not.
#[derive(Clone, Debug, Default)]
pub struct Tables {
    pub labels: Vec<Facts>,
    pub offsets: Vec<u32>,
    pub targets: Vec<u16>,
}

impl Plain {
    pub fn size(&self) -> usize {
        self.labels.len()
    }

    /// How many moves all rows have.
    pub fn moves(&self) -> usize {
        self.rows.iter().map(Vec::len).sum()
    }

    /// The file of this model, in the fewest bytes.
    pub fn file(&self) -> Vec<u8> {
        let mut file = Vec::new();
        put_number(&mut file, self.size() as u64);
        self.labels.iter().for_each(|&label| put_number(&mut file, label));
        for row in &self.rows {
            put_number(&mut file, row.len() as u64);
            row.iter().for_each(|&t| put_number(&mut file, t.into()));
        }
        file
    }

    pub fn tables(&self) -> Tables {
        let ends = self.rows.iter().scan(0, |end, row| {
            *end += row.len() as u32;
            Some(*end)
        });
        Tables {
            labels: self.labels.iter().map(|&bits| Facts { bits }).collect(),
            offsets: std::iter::once(0).chain(ends).collect(),
            targets: self.rows.concat(),
        }
    }
}

impl Tables {
    pub fn listed(&self) -> Listed<'_> {
        Listed { labels: &self.labels, offsets: &self.offsets, targets: &self.targets }
    }
}

/// Appends a number in groups of seven bits, the lowest first.
pub fn put_number(file: &mut Vec<u8>, number: u64) {
    let mut rest = number;
    while rest >= 0x80 {
        file.push(rest as u8 | 0x80);
        rest >>= 7;
    }
    file.push(rest as u8);
}
