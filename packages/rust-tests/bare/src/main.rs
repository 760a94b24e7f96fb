//! A program without `std`: it has only `alloc`, over `malloc`.
#![no_std]
#![no_main]

use core::alloc::{GlobalAlloc, Layout};
use core::ffi::{c_char, c_int, c_void};
use core::panic::PanicInfo;

use unicode_bidi::ParagraphBidiInfo;

#[link(name = "c")]
extern "C" {
    fn malloc(size: usize) -> *mut c_void;
    fn free(at: *mut c_void);
    fn abort() -> !;
    fn printf(format: *const c_char, ...) -> c_int;
}

struct Malloc;

unsafe impl GlobalAlloc for Malloc {
    unsafe fn alloc(&self, layout: Layout) -> *mut u8 {
        malloc(layout.size()).cast()
    }
    unsafe fn dealloc(&self, at: *mut u8, _: Layout) {
        free(at.cast())
    }
}

#[global_allocator]
static ALLOCATOR: Malloc = Malloc;

#[panic_handler]
fn panic(_: &PanicInfo) -> ! {
    unsafe { abort() }
}

/// `alloc` is compiled for programs that unwind, and names this function. Nothing here unwinds.
#[no_mangle]
extern "C" fn rust_eh_personality() {}

#[no_mangle]
extern "C" fn main(_: c_int, _: *const *const c_char) -> c_int {
    let text = "car (\u{5D0}\u{5D1}) 12";
    let info = ParagraphBidiInfo::new(text, None);
    let shown = info.reorder_line(0..text.len());
    let len = shown.len() as c_int;
    unsafe { printf(c"%.*s\n".as_ptr(), len, shown.as_ptr()) };
    0
}
