//! The six calls of the static library, and what each promises of the memory that it is lent.

/// The words of a work table that a call may use.
pub const WORK: usize = 16_384;

/// Twenty-three refusals, and 0 where nothing is refused.
const LAST: u32 = 23;

type Entry = unsafe extern "C" fn(*const u8, usize, *mut u32, usize, *mut u8, usize) -> u64;

extern "C" {
    fn intake_evaluate(sheet: *const u8, length: usize, work: *mut u32, words: usize, out: *mut u8, bytes: usize) -> u64;
    fn intake_preconditions(sheet: *const u8, length: usize, work: *mut u32, words: usize, out: *mut u8, bytes: usize) -> u64;
    fn intake_invariants(sheet: *const u8, length: usize, work: *mut u32, words: usize, out: *mut u8, bytes: usize) -> u64;
    fn intake_select(sheet: *const u8, length: usize, work: *mut u32, words: usize, out: *mut u8, bytes: usize) -> u64;
    fn intake_admit(place: u64, sheet: *const u8, length: usize, work: *mut u32, words: usize, out: *mut u8, bytes: usize) -> u64;
    fn intake_decide(sheet: *const u8, length: usize, work: *mut u32, words: usize, out: *mut u8, bytes: usize) -> u64;
}

#[derive(Clone, Copy, Debug, PartialEq)]
pub enum Call {
    Evaluate,
    Preconditions,
    Invariants,
    Select,
    Admit(u64),
    Decide,
}

impl Call {
    pub fn name(self) -> &'static str {
        match self {
            Call::Evaluate => "evaluate",
            Call::Preconditions => "preconditions",
            Call::Invariants => "invariants",
            Call::Select => "select",
            Call::Admit(_) => "admit",
            Call::Decide => "decide",
        }
    }

    pub fn place(self) -> usize {
        match self {
            Call::Admit(place) => place as usize,
            _ => 0,
        }
    }

    /// The word that the call gives back.
    ///
    /// # Safety
    /// Each pointer is that of so many elements, which nothing else reads or writes during the call; the sheet's bytes have values.
    pub unsafe fn word(self, sheet: &[u8], work: *mut u32, words: usize, out: *mut u8, bytes: usize) -> u64 {
        let entry: Entry = match self {
            Call::Evaluate => intake_evaluate,
            Call::Preconditions => intake_preconditions,
            Call::Invariants => intake_invariants,
            Call::Select => intake_select,
            Call::Admit(place) => return intake_admit(place, sheet.as_ptr(), sheet.len(), work, words, out, bytes),
            Call::Decide => intake_decide,
        };
        entry(sheet.as_ptr(), sheet.len(), work, words, out, bytes)
    }
}

/// Number and length of the line in a word that a call gave back.
pub fn parts_of(word: u64) -> (u32, usize) {
    ((word >> 32) as u32, word as u32 as usize)
}

/// A call's number and line, the line without its LF.
#[derive(Clone, Debug, PartialEq)]
pub struct Reply {
    pub number: u32,
    pub line: Option<Vec<u8>>,
}

/// Memory that calls are lent, filled anew for each.
pub struct Lent {
    work: Vec<u32>,
    out: Vec<u8>,
    turn: u32,
}

fn held(holds: bool, broken: &str) -> Result<(), String> {
    if holds {
        Ok(())
    } else {
        Err(broken.to_owned())
    }
}

impl Lent {
    /// Room for so many words and bytes.
    pub fn new(words: usize, bytes: usize) -> Self {
        Self { work: vec![0; words], out: vec![0; bytes], turn: 0 }
    }

    /// A call on memory that holds anything; the reply, or the promise that is broken.
    pub fn ask(&mut self, call: Call, sheet: &[u8], words: usize, bytes: usize) -> Result<Reply, String> {
        self.turn = self.turn.wrapping_mul(1_664_525).wrapping_add(1_013_904_223);
        let (word, byte) = (self.turn | 1, (self.turn >> 24) as u8);
        let (work, out) = (&mut self.work[..words], &mut self.out[..bytes]);
        work.fill(word);
        out.fill(byte);
        // SAFETY: the pointers are those of slices of these lengths, borrowed for the call.
        let (number, length) = parts_of(unsafe { call.word(sheet, work.as_mut_ptr(), words, out.as_mut_ptr(), bytes) });
        held(number <= LAST, &format!("{number} is not among the numbers"))?;
        let (used, spare) = work.split_at(if number == 1 { 0 } else { WORK.min(words) });
        held(spare.iter().all(|found| *found == word), "words that were not to be touched changed")?;
        held(used.iter().fold(0, |all, found| all | found) == 0, "the work table is not zero")?;
        held(length <= bytes, "the line is longer than the output")?;
        let (line, rest) = out.split_at(length);
        held(rest.iter().all(|found| *found == byte), "output past the line changed")?;
        let has_line = matches!(number, 0 | 13..=22);
        held(has_line == (length > 0), "the number does not go with a line, or lacks its line")?;
        let line = match line {
            [] => None,
            [text @ .., b'\n'] => Some(text.to_vec()),
            _ => return Err("the line does not end in LF".to_owned()),
        };
        Ok(Reply { number, line })
    }
}
