//! A model file read, or its first fault.
use crate::library::{Outcome, Room};
use crate::plain::Plain;

/// The most bytes of a file.
pub const LONGEST_FILE: usize = 32_767;
const MOST_STATES: u64 = 4_096;

/// How many entries the tables have that a file is loaded into.
#[derive(Clone, Copy, Debug)]
pub struct Rooms {
    pub labels: usize,
    pub offsets: usize,
    pub targets: usize,
}

impl Rooms {
    /// The sizes of lent tables.
    #[inline]
    pub fn of(room: &Room<'_>) -> Rooms {
        Rooms { labels: room.labels.len(), offsets: room.offsets.len(), targets: room.targets.len() }
    }

    /// As many entries as a model with so many states and moves takes.
    pub const fn fit(states: usize, moves: usize) -> Rooms {
        Rooms { labels: states, offsets: states + 1, targets: moves }
    }
}

/// The first fault of a file.
#[derive(Clone, Copy, Debug, PartialEq, Eq)]
pub struct Fault {
    pub cause: u8,
    pub place: usize,
}

impl Fault {
    /// Causes 1 and 2 are of a number, and the others of the file.
    #[inline]
    pub fn outcome(self) -> Outcome {
        let layer = if self.cause <= 2 { 1 } else { 2 };
        Outcome::refused(layer, self.cause, self.place, 0)
    }
}

/// Refuses a file.
#[inline]
pub fn fault<T>(cause: u8, place: usize) -> Result<T, Fault> {
    Err(Fault { cause, place })
}

/// How many states a file has that begins with this number, where the tables have room for them.
#[inline]
pub fn states_of(number: u64, rooms: Rooms) -> Result<usize, Fault> {
    if number == 0 || number > MOST_STATES {
        return fault(3, 0);
    }
    let n = number as usize;
    if rooms.labels < n || rooms.offsets <= n {
        return fault(5, 0);
    }
    Ok(n)
}

/// The model that a file denotes, where the tables have room for it.
pub fn read(file: &[u8], rooms: Rooms) -> Result<Plain, Fault> {
    if file.len() > LONGEST_FILE {
        return fault(7, LONGEST_FILE);
    }
    let mut bytes = Bytes { file, at: 0 };
    let states = bytes.number()?;
    let n = states_of(states, rooms)?;
    let labels = (0..n).map(|_| bytes.number()).collect::<Result<Vec<_>, _>>()?;
    let mut room = rooms.targets;
    let rows = (0..n).map(|_| bytes.row(states, &mut room)).collect::<Result<Vec<_>, _>>()?;
    if bytes.at < file.len() {
        return fault(6, bytes.at);
    }
    Ok(Plain { labels, rows })
}

struct Bytes<'a> {
    file: &'a [u8],
    at: usize,
}

impl Bytes<'_> {
    // The next number. It is cut short only if no byte below 80 is left, whatever was wrong with it before.
    fn number(&mut self) -> Result<u64, Fault> {
        let rest = &self.file[self.at..];
        let Some(last) = rest.iter().position(|&byte| byte < 0x80) else {
            return fault(1, self.file.len());
        };
        let first = self.at;
        self.at += last + 1;
        value(&rest[..=last]).map_or_else(|| fault(2, first), Ok)
    }

    // The next row, of which each target takes one entry of the room.
    fn row(&mut self, states: u64, room: &mut usize) -> Result<Vec<u16>, Fault> {
        let first = self.at;
        let degree = self.number()?;
        if degree > states {
            return fault(3, first);
        }
        let mut row: Vec<u16> = Vec::new();
        for _ in 0..degree {
            let first = self.at;
            let target = self.number()?;
            if target >= states {
                return fault(3, first);
            }
            if row.last().is_some_and(|&before| target <= before.into()) {
                return fault(4, first);
            }
            *room = match room.checked_sub(1) {
                Some(left) => left,
                None => return fault(5, first),
            };
            row.push(target as u16);
        }
        Ok(row)
    }
}

// The number that these bytes write, if they are the fewest and it is below 2^64.
fn value(bytes: &[u8]) -> Option<u64> {
    if bytes.len() > 10 || (bytes.len() > 1 && bytes.ends_with(&[0])) {
        return None;
    }
    let groups = bytes.iter().map(|&byte| u128::from(byte & 0x7F));
    let number = groups.rev().fold(0, |number, group| number << 7 | group);
    u64::try_from(number).ok()
}
