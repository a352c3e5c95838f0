//! The static library's functions, each in a safe wrapper: slices pass as a pointer and then a length.

/// The words of a state: word a is bit a.
#[repr(C)]
#[derive(Clone, Copy, Debug, PartialEq, Eq)]
pub struct Facts {
    pub bits: u64,
}

/// What a call answers. Cause 0 says that it was accepted.
#[repr(C)]
#[derive(Clone, Copy, Debug, PartialEq, Eq)]
pub struct Outcome {
    pub layer: u8,
    pub cause: u8,
    pub number: u16,
    pub place: usize,
    pub length: usize,
}

impl Outcome {
    pub fn accepted(length: usize) -> Outcome {
        Outcome { layer: 0, cause: 0, number: 0, place: 0, length }
    }

    pub fn refused(layer: u8, cause: u8, place: usize, number: u16) -> Outcome {
        Outcome { layer, cause, number, place, length: 0 }
    }

    /// The length of what was written, if the call was accepted.
    pub fn written(self) -> Option<usize> {
        (self.cause == 0).then_some(self.length)
    }
}

/// A model by tables, as it is lent to a call.
#[derive(Clone, Copy, Debug)]
pub struct Listed<'a> {
    pub labels: &'a [Facts],
    pub offsets: &'a [u32],
    pub targets: &'a [u16],
}

/// The tables that a file is loaded into.
pub struct Room<'a> {
    pub labels: &'a mut [Facts],
    pub offsets: &'a mut [u32],
    pub targets: &'a mut [u16],
}

mod raw {
    use super::{Facts, Outcome};

    extern "C" {
        pub fn tulavemin_merge_file(
            file: *const u8,
            file_len: usize,
            labels: *mut Facts,
            labels_len: usize,
            offsets: *mut u32,
            offsets_len: usize,
            targets: *mut u16,
            targets_len: usize,
            text: *mut u8,
            text_len: usize,
        ) -> Outcome;
        pub fn tulavemin_merge_tables(
            labels: *const Facts,
            labels_len: usize,
            offsets: *const u32,
            offsets_len: usize,
            targets: *const u16,
            targets_len: usize,
            text: *mut u8,
            text_len: usize,
        ) -> Outcome;
        pub fn tulavemin_reduce_file(
            file: *const u8,
            file_len: usize,
            labels: *mut Facts,
            labels_len: usize,
            offsets: *mut u32,
            offsets_len: usize,
            targets: *mut u16,
            targets_len: usize,
            reduced: *mut u8,
            reduced_len: usize,
        ) -> Outcome;
        pub fn tulavemin_check_tables(
            labels: *const Facts,
            labels_len: usize,
            offsets: *const u32,
            offsets_len: usize,
            targets: *const u16,
            targets_len: usize,
            steps: *const u16,
            steps_len: usize,
            marks: *mut u8,
            marks_len: usize,
        ) -> Outcome;
        pub fn tulavemin_components(
            labels: *const Facts,
            labels_len: usize,
            offsets: *const u32,
            offsets_len: usize,
            targets: *const u16,
            targets_len: usize,
            part: *mut [u8; 128],
        ) -> usize;
    }
}

// A call of the library: of each slice that it reads or writes a pointer and then the length, and a pointer alone.
// In all calls the library writes only into the slices that are lent for writing, and to what stands alone.
macro_rules! call {
    ($name:ident; reads $($read:expr),+ $(; writes $($write:expr),+)? $(; alone $alone:expr)?) => {
        unsafe {
            raw::$name(
                $($read.as_ptr(), $read.len(),)+
                $($($write.as_mut_ptr(), $write.len(),)+)?
                $($alone)?
            )
        }
    };
}

/// Loads a file, runs it to the end, and writes the listing at the front of `text`.
pub fn merge_file(file: &[u8], room: Room<'_>, text: &mut [u8]) -> Outcome {
    let Room { labels, offsets, targets } = room;
    call!(tulavemin_merge_file; reads file; writes labels, offsets, targets, text)
}

/// The same of a model by tables.
pub fn merge_tables(model: Listed<'_>, text: &mut [u8]) -> Outcome {
    let Listed { labels, offsets, targets } = model;
    call!(tulavemin_merge_tables; reads labels, offsets, targets; writes text)
}

/// Loads a file, runs it to the end, and writes the reduced model's file at the front of `reduced`.
pub fn reduce_file(file: &[u8], room: Room<'_>, reduced: &mut [u8]) -> Outcome {
    let Room { labels, offsets, targets } = room;
    call!(tulavemin_reduce_file; reads file; writes labels, offsets, targets, reduced)
}

/// Marks the states where the formula holds that the steps denote.
pub fn check_tables(model: Listed<'_>, steps: &[u16], marks: &mut [u8]) -> Outcome {
    let Listed { labels, offsets, targets } = model;
    call!(tulavemin_check_tables; reads labels, offsets, targets, steps; writes marks)
}

/// Writes each state's component at the front of `part`, and answers how many there are; 0 where there are more than 128
/// states. The library has a struct of so many bytes there.
pub fn components(model: Listed<'_>, part: &mut [u8; 128]) -> usize {
    let Listed { labels, offsets, targets } = model;
    call!(tulavemin_components; reads labels, offsets, targets; alone part)
}
