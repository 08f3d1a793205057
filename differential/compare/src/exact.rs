//! Calls on memory of just the size that is lent, and without values, for a memory checker: it sees a byte read or written past an end, and an answer that
//! rests on what the lent memory held.

use crate::damage::text;
use crate::sheets::{questions, shape, Question, Room};
use crate::Options;
use intake::{parts_of, WORK};
use std::alloc::{alloc, dealloc, handle_alloc_error, Layout};

/// So many elements that hold no value.
struct Raw<T> {
    at: *mut T,
    layout: Layout,
}

impl<T> Raw<T> {
    fn new(count: usize) -> Self {
        let layout = Layout::array::<T>(count.max(1)).expect("the size is small");
        // SAFETY: the layout is not of size 0.
        let at: *mut T = unsafe { alloc(layout) }.cast();
        if at.is_null() {
            handle_alloc_error(layout);
        }
        Self { at, layout }
    }
}

impl<T> Drop for Raw<T> {
    fn drop(&mut self) {
        // SAFETY: `new` allocated it with this layout.
        unsafe { dealloc(self.at.cast(), self.layout) }
    }
}

/// One call; the sum of what it promises to have written, so that all of it is read.
fn asked(text: &[u8], question: &Question) -> u64 {
    let bytes = if let Room::Short(bytes) = question.room { bytes } else { 4_000 };
    let (work, out, sheet) = (Raw::<u32>::new(question.words), Raw::<u8>::new(bytes), text.to_vec().into_boxed_slice());
    // SAFETY: each pointer is that of so many elements; no call reads a value of the two that it may write before it has written it.
    let word = unsafe { question.call.word(&sheet, work.at, question.words, out.at, bytes) };
    let (number, length) = parts_of(word);
    let used = if number == 1 { 0 } else { WORK };
    // SAFETY: the call has written these.
    let (work, line) = unsafe { (std::slice::from_raw_parts(work.at, used), std::slice::from_raw_parts(out.at, length)) };
    assert!(work.iter().all(|word| *word == 0), "the work table is not zero");
    assert!(line.last().is_none_or(|last| *last == b'\n'), "the line does not end in LF");
    word + line.iter().map(|byte| u64::from(*byte)).sum::<u64>()
}

/// Accepted sheets and damaged texts in turn; how many calls were made.
pub fn all(options: &Options) -> usize {
    let mut calls = 0;
    for index in 0..options.count {
        let mut random = options.random(index);
        let text = if index % 2 == 0 { generate::sheet(&mut random, shape(index)).into_bytes() } else { text(&mut random) };
        options.trace(&text);
        let questions = questions(&mut random, options);
        calls += questions.len();
        let sum: u64 = questions.iter().map(|question| asked(&text, question)).fold(0, u64::wrapping_add);
        std::hint::black_box(sum);
    }
    calls
}
