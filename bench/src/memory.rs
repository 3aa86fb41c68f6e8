//! How much memory is taken: the heap by an allocator that counts while it is told to, the stack by the pages
//! of a fresh thread's that were touched.

use std::alloc::{GlobalAlloc, Layout, System};
use std::sync::atomic::{AtomicBool, AtomicIsize, Ordering::Relaxed};

static COUNTING: AtomicBool = AtomicBool::new(false);
static HELD: AtomicIsize = AtomicIsize::new(0);
static PEAK: AtomicIsize = AtomicIsize::new(0);

pub const STACK: usize = 8 << 30;
const PAGE: usize = 4096;

pub struct Counting;

fn count(bytes: isize) {
    if COUNTING.load(Relaxed) {
        let held = HELD.fetch_add(bytes, Relaxed) + bytes;
        PEAK.fetch_max(held, Relaxed);
    }
}

unsafe impl GlobalAlloc for Counting {
    unsafe fn alloc(&self, layout: Layout) -> *mut u8 {
        count(layout.size() as isize);
        System.alloc(layout)
    }
    unsafe fn alloc_zeroed(&self, layout: Layout) -> *mut u8 {
        count(layout.size() as isize);
        System.alloc_zeroed(layout)
    }
    unsafe fn dealloc(&self, pointer: *mut u8, layout: Layout) {
        count(-(layout.size() as isize));
        System.dealloc(pointer, layout)
    }
    unsafe fn realloc(&self, pointer: *mut u8, layout: Layout, size: usize) -> *mut u8 {
        // As if it grew in place: what a move holds twice is not counted.
        count(size as isize - layout.size() as isize);
        System.realloc(pointer, layout, size)
    }
}

extern "C" {
    fn mincore(start: *mut u8, length: usize, pages: *mut u8) -> i32;
}

/// The most bytes of heap that the work holds at a time, and the bytes of stack that it touches, to a page.
pub fn of<Value: Send>(work: impl FnOnce() -> Value + Send) -> usize {
    std::thread::scope(|scope| {
        let thread = std::thread::Builder::new().stack_size(STACK).spawn_scoped(scope, || {
            let here = 0u8;
            let top = &here as *const u8 as usize / PAGE * PAGE;
            HELD.store(0, Relaxed);
            PEAK.store(0, Relaxed);
            COUNTING.store(true, Relaxed);
            let value = work();
            COUNTING.store(false, Relaxed);
            drop(value);
            PEAK.load(Relaxed) as usize + touched(top)
        });
        thread.expect("a thread").join().expect("no panic")
    })
}

/// The bytes below an address of this thread's stack, page by page, up to the first page never touched.
fn touched(top: usize) -> usize {
    let mut bytes = 0;
    let mut page = [1u8];
    while bytes + (1 << 20) < STACK {
        let start = (top - bytes - PAGE) as *mut u8;
        if unsafe { mincore(start, PAGE, page.as_mut_ptr()) } != 0 || page[0] & 1 == 0 {
            break;
        }
        bytes += PAGE;
    }
    bytes
}
