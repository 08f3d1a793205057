//! No call allocates.

use intake::Intake;
use std::{
    alloc::{GlobalAlloc, Layout, System},
    cell::Cell,
};

struct Counting;

thread_local! {
    /// What this thread has allocated; others, as the test's own runner, do not count.
    static ALLOCATED: Cell<usize> = const { Cell::new(0) };
}

// SAFETY: the system's allocator does the work.
unsafe impl GlobalAlloc for Counting {
    unsafe fn alloc(&self, layout: Layout) -> *mut u8 {
        ALLOCATED.with(|count| count.set(count.get() + 1));
        System.alloc(layout)
    }

    unsafe fn dealloc(&self, memory: *mut u8, layout: Layout) {
        System.dealloc(memory, layout)
    }
}

#[global_allocator]
static COUNTING: Counting = Counting;

#[test]
fn no_call_allocates() {
    let sheet = include_bytes!("../../../examples/erased.json");
    let mut intake = Intake::new();
    let before = ALLOCATED.with(Cell::get);
    assert!(before > 0);
    for _ in 0..100 {
        assert!(intake.decide(sheet).line.is_some());
        assert!(intake.admit(0, sheet).line.is_some());
    }
    assert_eq!(ALLOCATED.with(Cell::get), before);
}
