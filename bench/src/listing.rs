//! The listing, written from tables of short decimals.
use compare::library::Outcome;

/// No listing of at most 128 states is longer, with some space for writing whole entries at the end.
const LONGEST: usize = 1_152;

/// The counts that a listing begins with.
#[derive(Clone, Copy)]
pub struct Counts {
    pub states: usize,
    pub components: usize,
    pub labels: usize,
    pub rounds: usize,
    pub classes: usize,
}

// A number from 0 to 128 in decimal with a byte behind it, and how many bytes that is.
#[derive(Clone, Copy)]
struct Entry {
    bytes: [u8; 4],
    len: u8,
}

const fn entries(end: u8) -> [Entry; 129] {
    let mut all = [Entry { bytes: [0; 4], len: 0 }; 129];
    let mut i = 0;
    while i < 129 {
        let digits = [b'0' + (i / 100) as u8, b'0' + (i / 10 % 10) as u8, b'0' + (i % 10) as u8];
        let [a, b, c] = digits;
        all[i] = match i {
            0..=9 => Entry { bytes: [c, end, 0, 0], len: 2 },
            10..=99 => Entry { bytes: [b, c, end, 0], len: 3 },
            _ => Entry { bytes: [a, b, c, end], len: 4 },
        };
        i += 1;
    }
    all
}

static BEFORE_SPACE: [Entry; 129] = entries(b' ');
static BEFORE_END: [Entry; 129] = entries(b'\n');

struct Page {
    bytes: [u8; LONGEST],
    len: usize,
}

impl Page {
    #[inline(always)]
    fn put(&mut self, entry: &Entry) {
        self.bytes[self.len..self.len + 4].copy_from_slice(&entry.bytes);
        self.len += usize::from(entry.len);
    }

    #[inline(always)]
    fn line(&mut self, name: &[u8], number: usize) {
        self.bytes[self.len..self.len + name.len()].copy_from_slice(name);
        self.len += name.len();
        self.put(&BEFORE_END[number]);
    }
}

/// Writes the listing at the front of `text`, if there is room, where `class` has a class for each state.
pub fn write(counts: Counts, class: &[u8], text: &mut [u8]) -> Outcome {
    let mut page = Page { bytes: [0; LONGEST], len: 0 };
    page.line(b"states ", counts.states);
    page.line(b"components ", counts.components);
    page.line(b"labels ", counts.labels);
    page.line(b"rounds ", counts.rounds);
    page.line(b"classes ", counts.classes);
    for (entry, &c) in BEFORE_SPACE.iter().zip(class) {
        page.put(entry);
        page.put(&BEFORE_END[usize::from(c)]);
    }
    match text.get_mut(..page.len) {
        None => Outcome::refused(0, 25, 0, 0),
        Some(front) => {
            front.copy_from_slice(&page.bytes[..page.len]);
            Outcome::accepted(page.len)
        }
    }
}
