//! The static library's doors, called with fences around every slice.

use crate::cases::Case;

extern "C" {
    fn switch_step(
        present: u64,
        arrival: u64,
        destination: u64,
        sheet: *const u8,
        sheet_len: usize,
        faults: *const u8,
        faults_len: usize,
        tag: *mut u8,
        tag_len: usize,
    ) -> u64;
}

/// What a step gave: the answer's number and the tag afterwards.
#[derive(Clone, Debug, PartialEq, Eq)]
pub struct Outcome {
    pub answer: u64,
    pub tag: Vec<u8>,
}

/// The pointer that goes with a length of 0.
#[derive(Clone, Copy, Debug, PartialEq, Eq)]
pub enum Empty {
    /// Between two fences, like a slice with bytes.
    Fenced,
    Null,
    /// Where nothing is mapped.
    Wild,
}

pub const EMPTIES: [Empty; 3] = [Empty::Fenced, Empty::Null, Empty::Wild];

/// Long enough for the next record of any kind and for a cell or two.
const FENCE: usize = 64;

/// What an overrun would read goes on as a record of the right kind would, so
/// that it changes the answer; an overrun that writes changes these bytes.
const SHEET_FENCE: [u8; 7] = [2, 1, 47, 0, 2, 47, 0];
const FAULT_FENCE: [u8; 3] = [3, 1, 1];
const TAG_FENCE: [u8; 2] = [0x5A, 0xC3];

/// A copy of a slice with a fence before and after it.
struct Fenced {
    bytes: Vec<u8>,
    before: Vec<u8>,
    length: usize,
    empty: Empty,
}

impl Fenced {
    fn new(inner: &[u8], pattern: &[u8], empty: Empty) -> Fenced {
        let mut bytes = Vec::with_capacity(inner.len() + 2 * FENCE);
        bytes.extend(pattern.iter().cycle().take(FENCE));
        bytes.extend(inner);
        bytes.extend(pattern.iter().cycle().take(FENCE));
        Fenced {
            before: bytes.clone(),
            bytes,
            length: inner.len(),
            empty,
        }
    }

    fn pointer(&mut self) -> *mut u8 {
        match self.empty {
            Empty::Null if self.length == 0 => std::ptr::null_mut(),
            Empty::Wild if self.length == 0 => std::ptr::without_provenance_mut(1),
            _ => self.bytes[FENCE..].as_mut_ptr(),
        }
    }

    fn inner(&self) -> &[u8] {
        &self.bytes[FENCE..FENCE + self.length]
    }

    fn fences_stand(&self) -> bool {
        let after = FENCE + self.length;
        self.bytes[..FENCE] == self.before[..FENCE] && self.bytes[after..] == self.before[after..]
    }

    fn unchanged(&self) -> bool {
        self.bytes == self.before
    }
}

/// One step of the library; an error if a byte changed that is not the tag's.
pub fn step(case: &Case, empty: Empty) -> Result<Outcome, String> {
    let mut sheet = Fenced::new(&case.sheet, &SHEET_FENCE, empty);
    let mut faults = Fenced::new(&case.faults, &FAULT_FENCE, empty);
    let mut tag = Fenced::new(&case.tag, &TAG_FENCE, empty);
    let [present, arrival, destination] = case.numbers;
    // SAFETY: each pointer leads to as many bytes as its length says, which
    // live until after the call; those of the tag may be written.
    let answer = unsafe {
        switch_step(
            present,
            arrival,
            destination,
            sheet.pointer(),
            sheet.length,
            faults.pointer(),
            faults.length,
            tag.pointer(),
            tag.length,
        )
    };
    if !sheet.unchanged() || !faults.unchanged() {
        return Err("a byte in or beside the sheet or the fault list was written".to_string());
    }
    if !tag.fences_stand() {
        return Err("a byte beside the tag was written".to_string());
    }
    let tag = tag.inner().to_vec();
    Ok(Outcome { answer, tag })
}

/// The type of the door itself, for those who look at its stack.
pub type Door =
    unsafe extern "C" fn(u64, u64, u64, *const u8, usize, *const u8, usize, *mut u8, usize) -> u64;

pub fn step_door() -> Door {
    switch_step
}

/// The bare call, for measuring.
pub fn step_unfenced(numbers: [u64; 3], sheet: &[u8], faults: &[u8], tag: &mut [u8]) -> u64 {
    let [present, arrival, destination] = numbers;
    // SAFETY: pointers and lengths are those of live slices.
    unsafe {
        switch_step(
            present,
            arrival,
            destination,
            sheet.as_ptr(),
            sheet.len(),
            faults.as_ptr(),
            faults.len(),
            tag.as_mut_ptr(),
            tag.len(),
        )
    }
}

/// The faulty row: 4294967296 where it is of the fault list, plus 65536 times
/// the start, plus the length.
pub fn faulty_row(sheet: &[u8], faults: &[u8]) -> Result<u64, String> {
    extern "C" {
        fn sheet_faulty_row(
            sheet: *const u8,
            sheet_len: usize,
            faults: *const u8,
            faults_len: usize,
        ) -> u64;
    }
    let mut sheet = Fenced::new(sheet, &SHEET_FENCE, Empty::Fenced);
    let mut faults = Fenced::new(faults, &FAULT_FENCE, Empty::Fenced);
    // SAFETY: as for a step; nothing is written.
    let answer = unsafe {
        sheet_faulty_row(
            sheet.pointer(),
            sheet.length,
            faults.pointer(),
            faults.length,
        )
    };
    if sheet.unchanged() && faults.unchanged() {
        Ok(answer)
    } else {
        Err("a byte in or beside the sheet or the fault list was written".to_string())
    }
}
