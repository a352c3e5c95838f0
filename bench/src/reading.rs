//! A model file loaded into tables, as both engines do it: looked over first, so that a refusal alters nothing.
use compare::library::{Facts, Room};
use compare::reading::{fault, states_of, Fault, Rooms, LONGEST_FILE};

/// How much of each table a file takes.
#[derive(Clone, Copy)]
pub struct Loaded {
    pub states: usize,
    pub moves: usize,
}

type Read<T> = Result<T, Fault>;

/// Loads a file. Each row is shown with its targets while it is looked over.
pub fn load(file: &[u8], room: &mut Room<'_>, mut row_shown: impl FnMut(usize, &[u8])) -> Read<Loaded> {
    if file.len() > LONGEST_FILE {
        return fault(7, LONGEST_FILE);
    }
    let mut bytes = Bytes { file, at: 0 };
    let states = bytes.number()?;
    let n = states_of(states, Rooms::of(room))?;
    let labels_at = bytes.at;
    for _ in 0..n {
        bytes.number()?;
    }
    let mut moves = 0;
    for s in 0..n {
        let left = room.targets.len() - moves;
        moves += match bytes.short_row(n, left) {
            Some(row) => {
                row_shown(s, row);
                row.len()
            }
            None => bytes.row(states, left)?,
        };
    }
    if bytes.at < file.len() {
        return fault(6, bytes.at);
    }
    fill(&file[labels_at..], room, n);
    Ok(Loaded { states: n, moves })
}

// Fills the tables from the labels and rows of a file that is right.
fn fill(rest: &[u8], room: &mut Room<'_>, n: usize) {
    let mut bytes = Bytes { file: rest, at: 0 };
    for label in &mut room.labels[..n] {
        *label = Facts { bits: bytes.value() };
    }
    let mut end = 0;
    room.offsets[0] = 0;
    for offset in &mut room.offsets[1..=n] {
        let degree = bytes.value() as usize;
        let row = &mut room.targets[end..end + degree];
        if n <= 0x80 {
            let targets = &rest[bytes.at..bytes.at + degree];
            row.iter_mut().zip(targets).for_each(|(t, &byte)| *t = byte.into());
            bytes.at += degree;
        } else {
            row.iter_mut().for_each(|t| *t = bytes.value() as u16);
        }
        end += degree;
        *offset = end as u32;
    }
}

struct Bytes<'a> {
    file: &'a [u8],
    at: usize,
}

impl<'a> Bytes<'a> {
    // The next number, most often one byte.
    #[inline(always)]
    fn number(&mut self) -> Read<u64> {
        match self.file.get(self.at) {
            Some(&byte) if byte < 0x80 => {
                self.at += 1;
                Ok(byte.into())
            }
            _ => self.long_number(),
        }
    }

    #[inline(never)]
    fn long_number(&mut self) -> Read<u64> {
        let first = self.at;
        let mut number: u64 = 0;
        let mut fits = true;
        for shift in (0..).step_by(7) {
            let Some(&byte) = self.file.get(self.at) else {
                return fault(1, self.file.len());
            };
            self.at += 1;
            let group = u64::from(byte & 0x7F);
            fits &= shift < 63 || (shift == 63 && group <= 1);
            if shift <= 63 {
                number |= group << shift;
            }
            if byte < 0x80 {
                return if fits && byte != 0 { Ok(number) } else { fault(2, first) };
            }
        }
        unreachable!("a file has an end")
    }

    // The next number of a file that is right.
    #[inline(always)]
    fn value(&mut self) -> u64 {
        let mut byte = self.file[self.at];
        let mut number = u64::from(byte & 0x7F);
        let mut shift = 7;
        self.at += 1;
        while byte >= 0x80 {
            byte = self.file[self.at];
            number |= u64::from(byte & 0x7F) << shift;
            shift += 7;
            self.at += 1;
        }
        number
    }

    // The next row, if it is right, there is room for it, and each of its numbers is one byte.
    #[inline(always)]
    fn short_row(&mut self, n: usize, left: usize) -> Option<&'a [u8]> {
        let first = usize::from(*self.file.get(self.at)?);
        let (degree, width) = match first {
            0..=0x7F => (first, 1),
            0x80 if self.file.get(self.at + 1) == Some(&1) => (0x80, 2),
            _ => return None,
        };
        let from = self.at + width;
        let row = self.file.get(from..from + degree)?;
        let last = row.last().map_or(0, |&t| usize::from(t));
        let rising = row.windows(2).fold(true, |rising, pair| rising & (pair[0] < pair[1]));
        if n > 0x80 || degree > n || degree > left || last >= n || !rising {
            return None;
        }
        self.at = from + degree;
        Some(row)
    }

    // The next row, number by number: how many moves it has, or what is wrong with it.
    #[inline(never)]
    fn row(&mut self, states: u64, left: usize) -> Read<usize> {
        let first = self.at;
        let degree = self.number()?;
        if degree > states {
            return fault(3, first);
        }
        let mut least = 0;
        for k in 0..degree as usize {
            let first = self.at;
            let target = self.number()?;
            if target >= states {
                return fault(3, first);
            }
            if target < least {
                return fault(4, first);
            }
            if k >= left {
                return fault(5, first);
            }
            least = target + 1;
        }
        Ok(degree as usize)
    }
}
