//! Memory that cannot be had: one line, and exit status 2.
#![allow(unsafe_code)]

use crate::unfinished;
use std::alloc::{GlobalAlloc, Layout, System};
use std::io::Write;

/// The system's allocator; where it has nothing left, the program ends.
struct Allocator;

#[global_allocator]
static ALLOCATOR: Allocator = Allocator;

// SAFETY: every function passes its arguments on to the system's allocator and gives back what that gave, or does not return.
unsafe impl GlobalAlloc for Allocator {
    unsafe fn alloc(&self, layout: Layout) -> *mut u8 {
        or_end(unsafe { System.alloc(layout) }, layout.size())
    }

    unsafe fn alloc_zeroed(&self, layout: Layout) -> *mut u8 {
        or_end(unsafe { System.alloc_zeroed(layout) }, layout.size())
    }

    unsafe fn realloc(&self, old: *mut u8, layout: Layout, size: usize) -> *mut u8 {
        or_end(unsafe { System.realloc(old, layout, size) }, size)
    }

    unsafe fn dealloc(&self, old: *mut u8, layout: Layout) {
        unsafe { System.dealloc(old, layout) }
    }
}

fn or_end(memory: *mut u8, size: usize) -> *mut u8 {
    if memory.is_null() {
        // nothing here allocates
        let _ = writeln!(std::io::stderr(), "hall: there is not enough memory: {size} bytes more could not be had");
        unfinished::remove_if_free();
        std::process::exit(2);
    }
    memory
}
