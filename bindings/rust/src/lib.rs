//! Decisions on JSON sheets, by the proved library `intake` (include/intake.h says what each call answers).
//!
//! ```
//! let mut intake = intake::Intake::new();
//! let decision = intake.decide(b"{}");
//! assert_eq!(decision.number, intake::Number::NotASheet);
//! assert_eq!(decision.line, None);
//! ```

/// The words of a work table.
const WORK_WORDS: usize = 16_384;

/// An output that no line exceeds (INTAKE_OUTPUT_BYTES of the header).
pub const OUTPUT_BYTES: usize = 294_976;

type Call = unsafe extern "C" fn(*const u8, usize, *mut u32, usize, *mut u8, usize) -> u64;

extern "C" {
    fn intake_evaluate(sheet: *const u8, sheet_length: usize, work: *mut u32, work_length: usize, output: *mut u8, output_length: usize) -> u64;
    fn intake_preconditions(sheet: *const u8, sheet_length: usize, work: *mut u32, work_length: usize, output: *mut u8, output_length: usize) -> u64;
    fn intake_invariants(sheet: *const u8, sheet_length: usize, work: *mut u32, work_length: usize, output: *mut u8, output_length: usize) -> u64;
    fn intake_select(sheet: *const u8, sheet_length: usize, work: *mut u32, work_length: usize, output: *mut u8, output_length: usize) -> u64;
    fn intake_admit(place: u64, sheet: *const u8, sheet_length: usize, work: *mut u32, work_length: usize, output: *mut u8, output_length: usize) -> u64;
    fn intake_decide(sheet: *const u8, sheet_length: usize, work: *mut u32, work_length: usize, output: *mut u8, output_length: usize) -> u64;
    fn intake_version() -> u32;
}

macro_rules! numbers {
    ($($name:ident),*) => {
        /// What a call ended with: `number as u32` is the header's number.
        #[derive(Clone, Copy, Debug, PartialEq, Eq, Hash)]
        pub enum Number {
            $($name),*
        }

        /// Every number, by place.
        pub const NUMBERS: &[Number] = &[$(Number::$name),*];
    };
}

numbers! {
    Answered,
    WorkTooShort,
    SheetTooLong,
    NotUtf8,
    NotJson,
    TooDeep,
    NumberTooLong,
    TooManyNodes,
    RepeatedName,
    NotASheet,
    WrongShape,
    NotCarried,
    NoInput,
    UnknownExpression,
    NoId,
    PreconditionFalse,
    PreconditionUnknown,
    InvariantFalse,
    InvariantUnknown,
    NoOutcome,
    GuardUnknown,
    WrongState,
    NotASource,
    LineTooLong
}

/// A call's number, and its line with LF, if it has one.
#[derive(Clone, Copy, Debug, PartialEq, Eq)]
pub struct Decision<'a> {
    pub number: Number,
    pub line: Option<&'a [u8]>,
}

/// The memory that calls are lent: no call allocates, and a line stands until the next one.
pub struct Intake {
    work: Box<[u32]>,
    output: Box<[u8]>,
}

impl Default for Intake {
    fn default() -> Self {
        Self::new()
    }
}

impl Intake {
    /// With an output that no line exceeds.
    pub fn new() -> Self {
        Self::with_output(OUTPUT_BYTES)
    }

    /// With an output of so many bytes; a longer line is refused ([`Number::LineTooLong`]).
    pub fn with_output(bytes: usize) -> Self {
        Self { work: vec![0; WORK_WORDS].into(), output: vec![0; bytes].into() }
    }

    /// The truth of the sheet's condition, and the names that it misses.
    pub fn evaluate(&mut self, sheet: &[u8]) -> Decision<'_> {
        self.call(intake_evaluate, sheet)
    }

    /// Whether all preconditions are true.
    pub fn preconditions(&mut self, sheet: &[u8]) -> Decision<'_> {
        self.call(intake_preconditions, sheet)
    }

    /// Whether all invariants are true.
    pub fn invariants(&mut self, sheet: &[u8]) -> Decision<'_> {
        self.call(intake_invariants, sheet)
    }

    /// The first eligible outcome whose guard is true or missing.
    pub fn select(&mut self, sheet: &[u8]) -> Decision<'_> {
        self.call(intake_select, sheet)
    }

    /// Whether the outcome at a place, from 0 on, is kept in the sheet's state.
    pub fn admit(&mut self, place: u64, sheet: &[u8]) -> Decision<'_> {
        let (work, output) = (&mut self.work, &mut self.output);
        // SAFETY: the pointers and lengths are those of three slices, of which the two that are written are borrowed here alone.
        let answer = unsafe { intake_admit(place, sheet.as_ptr(), sheet.len(), work.as_mut_ptr(), work.len(), output.as_mut_ptr(), output.len()) };
        self.decision(answer)
    }

    /// The whole decision: preconditions, then the outcome selected, then its admission.
    pub fn decide(&mut self, sheet: &[u8]) -> Decision<'_> {
        self.call(intake_decide, sheet)
    }

    fn call(&mut self, call: Call, sheet: &[u8]) -> Decision<'_> {
        let (work, output) = (&mut self.work, &mut self.output);
        // SAFETY: the pointers and lengths are those of three slices, of which the two that are written are borrowed here alone.
        let answer = unsafe { call(sheet.as_ptr(), sheet.len(), work.as_mut_ptr(), work.len(), output.as_mut_ptr(), output.len()) };
        self.decision(answer)
    }

    /// The number in the upper half of a word, and the line, whose length is in the lower half.
    fn decision(&self, answer: u64) -> Decision<'_> {
        let line = &self.output[..answer as u32 as usize];
        Decision { number: NUMBERS[(answer >> 32) as usize], line: Some(line).filter(|line| !line.is_empty()) }
    }
}

/// The version of the library that is linked: 10,000 times the major number, 100 times the minor one, and the patch.
pub fn version() -> u32 {
    // SAFETY: the function reads nothing.
    unsafe { intake_version() }
}
