//! Requests for memory of the language itself: where one is refused, a shared interner says so, and leaves nothing; and what is written to a block.

use interned_names::{Fault, Interner, SharedInterner};
use std::alloc::{GlobalAlloc, Layout, System};
use std::cell::Cell;
use std::ptr;
use std::slice;

thread_local! {
    /// Whether this thread's next request is refused.
    static IS_REFUSED: Cell<bool> = const { Cell::new(false) };
    /// How many blocks this thread has.
    static BLOCKS: Cell<isize> = const { Cell::new(0) };
    /// How many bytes were written to the last block of [`WATCHED`] bytes that this thread gave back.
    static WRITTEN: Cell<usize> = const { Cell::new(0) };
}

/// A block of this size, which no other has here, is full of one byte when it is given.
const WATCHED: usize = 54_321;
const UNTOUCHED: u8 = 0xa5;

/// The system's memory, which refuses a request where it is told so.
struct Refusing;

// SAFETY: all blocks are the system's.
unsafe impl GlobalAlloc for Refusing {
    unsafe fn alloc(&self, layout: Layout) -> *mut u8 {
        if IS_REFUSED.with(|is| is.replace(false)) {
            return ptr::null_mut();
        }
        BLOCKS.with(|blocks| blocks.set(blocks.get() + 1));
        let block = unsafe { System.alloc(layout) };
        if layout.size() == WATCHED && !block.is_null() {
            unsafe { block.write_bytes(UNTOUCHED, WATCHED) };
        }
        block
    }

    unsafe fn dealloc(&self, block: *mut u8, layout: Layout) {
        BLOCKS.with(|blocks| blocks.set(blocks.get() - 1));
        if layout.size() == WATCHED {
            let bytes = unsafe { slice::from_raw_parts(block, WATCHED) };
            WRITTEN.with(|written| written.set(bytes.iter().filter(|&&byte| byte != UNTOUCHED).count()));
        }
        unsafe { System.dealloc(block, layout) }
    }
}

#[global_allocator]
static MEMORY: Refusing = Refusing;

#[test]
fn a_request_for_shards_is_refused() {
    let before = BLOCKS.with(Cell::get);
    IS_REFUSED.with(|is| is.set(true));
    let refused = SharedInterner::<()>::with_limits(3, 9, 9, 0).err();
    assert!(!IS_REFUSED.with(Cell::get));
    assert_eq!((refused, BLOCKS.with(Cell::get)), (Some(Fault::Memory), before));
    let names = SharedInterner::with_limits(3, 9, 9, 0).expect("an interner");
    assert_eq!(names.intern("a longer name").map(|symbol| symbol.text()).as_deref(), Ok("a longer name"));
}

#[test]
fn limits_that_are_refused_leave_nothing() {
    let before = BLOCKS.with(Cell::get);
    assert_eq!(SharedInterner::<()>::with_limits(3, 0, 9, 0).err(), Some(Fault::NotLimits));
    assert_eq!(BLOCKS.with(Cell::get), before);
}

/// Interning and giving back ask the language for nothing.
#[test]
fn interning_asks_for_none() {
    let names = SharedInterner::new().expect("an interner");
    IS_REFUSED.with(|is| is.set(true));
    let symbol = names.intern("a longer name").expect("a symbol");
    let copy = symbol.clone();
    assert!(symbol == copy && names.try_get("a longer name").is_ok_and(|found| found.is_some()));
    drop((symbol, copy));
    assert!(names.is_empty() && IS_REFUSED.with(|is| is.replace(false)));
}

/// The memory that a long text left has the bytes of the next one, and nothing else is written to it.
#[test]
fn a_text_fills_no_more_than_its_own_bytes() {
    let mut names = Interner::new().expect("an interner");
    let (symbol, short) = (names.intern("a longer name").expect("a symbol"), names.intern("short").expect("a symbol"));
    for (symbol, name) in [(symbol, "a longer name"), (short, "short")] {
        let mut text = String::with_capacity(WATCHED);
        assert!(names.text_into(symbol, &mut text) && text == name && text.capacity() == WATCHED);
        drop(text);
        assert_eq!(WRITTEN.with(Cell::get), name.len());
    }
    let mut text = String::with_capacity(WATCHED);
    assert!(names.release(symbol) && !names.text_into(symbol, &mut text));
    assert!(text.is_empty() && text.capacity() == WATCHED);
    drop(text);
    assert_eq!(WRITTEN.with(Cell::get), 0);
}
