//! An allocator that counts, where it is asked to, the bytes that are held.

use std::alloc::{GlobalAlloc, Layout, System};
use std::sync::atomic::{AtomicBool, AtomicIsize, Ordering::Relaxed};

/// The system's allocator, with a count.
pub struct Counting;

static ON: AtomicBool = AtomicBool::new(false);
static BYTES: AtomicIsize = AtomicIsize::new(0);

fn add(bytes: isize) {
    // off while anything is timed: then this is one load
    if ON.load(Relaxed) {
        BYTES.fetch_add(bytes, Relaxed);
    }
}

// SAFETY: every call is handed to the system's allocator as it came; the count touches no memory of theirs.
unsafe impl GlobalAlloc for Counting {
    unsafe fn alloc(&self, layout: Layout) -> *mut u8 {
        add(layout.size() as isize);
        System.alloc(layout)
    }
    unsafe fn dealloc(&self, at: *mut u8, layout: Layout) {
        add(-(layout.size() as isize));
        System.dealloc(at, layout)
    }
    unsafe fn realloc(&self, at: *mut u8, layout: Layout, size: usize) -> *mut u8 {
        add(size as isize - layout.size() as isize);
        System.realloc(at, layout, size)
    }
}

/// The bytes that `make` leaves allocated in what it gives back.
pub fn bytes_of<T>(make: impl FnOnce() -> T) -> usize {
    BYTES.store(0, Relaxed);
    ON.store(true, Relaxed);
    let made = make();
    let bytes = BYTES.load(Relaxed);
    ON.store(false, Relaxed);
    drop(made);
    bytes.max(0) as usize
}
