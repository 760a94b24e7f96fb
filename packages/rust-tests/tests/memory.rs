//! A failed allocation in the library ends the program as one in Rust does: by `handle_alloc_error`.
//!
//! The program replaces `malloc` and `realloc` of glibc, and runs itself again with a number n. Then the n-th request
//! of the library fails. Requests of Rust's allocator are marked, and do not fail.

use std::alloc::{GlobalAlloc, Layout, System};
use std::cell::Cell;
use std::ffi::c_void;
use std::os::unix::process::ExitStatusExt;
use std::process::{Command, Output};
use std::ptr;
use std::sync::atomic::{AtomicUsize, Ordering};

use unicode_bidi::displayed::{self, DisplayOptions, Moves};
use unicode_bidi::{BidiClass, BidiDataSource, BidiInfo, Level, ParagraphBidiInfo};

const NEVER: usize = usize::MAX;
const SIGABRT: i32 = 6;

/// How many requests of the library succeed before one fails.
static UNTIL_FAILURE: AtomicUsize = AtomicUsize::new(NEVER);

thread_local! {
    static IN_RUST: Cell<bool> = const { Cell::new(false) };
}

extern "C" {
    fn __libc_malloc(size: usize) -> *mut c_void;
    fn __libc_realloc(from: *mut c_void, size: usize) -> *mut c_void;
}

fn fails() -> bool {
    if UNTIL_FAILURE.load(Ordering::Relaxed) == NEVER || IN_RUST.with(Cell::get) {
        return false;
    }
    UNTIL_FAILURE.fetch_sub(1, Ordering::Relaxed) == 0
}

#[no_mangle]
extern "C" fn malloc(size: usize) -> *mut c_void {
    if fails() {
        return ptr::null_mut();
    }
    unsafe { __libc_malloc(size) }
}

#[no_mangle]
extern "C" fn realloc(from: *mut c_void, size: usize) -> *mut c_void {
    if fails() {
        return ptr::null_mut();
    }
    unsafe { __libc_realloc(from, size) }
}

struct Marking;

fn marked<T>(request: impl FnOnce() -> T) -> T {
    let before = IN_RUST.with(|flag| flag.replace(true));
    let result = request();
    IN_RUST.with(|flag| flag.set(before));
    result
}

unsafe impl GlobalAlloc for Marking {
    unsafe fn alloc(&self, layout: Layout) -> *mut u8 {
        marked(|| System.alloc(layout))
    }
    unsafe fn dealloc(&self, at: *mut u8, layout: Layout) {
        System.dealloc(at, layout)
    }
    unsafe fn realloc(&self, at: *mut u8, layout: Layout, size: usize) -> *mut u8 {
        marked(|| System.realloc(at, layout, size))
    }
    unsafe fn alloc_zeroed(&self, layout: Layout) -> *mut u8 {
        marked(|| System.alloc_zeroed(layout))
    }
}

#[global_allocator]
static ALLOCATOR: Marking = Marking;

/// Hebrew letters are R, an RLI is one, other characters are L.
struct Letters;

impl BidiDataSource for Letters {
    fn bidi_class(&self, c: char) -> BidiClass {
        match c {
            '\u{5D0}'..='\u{5EA}' => BidiClass::R,
            '\u{2067}' => BidiClass::RLI,
            '(' | ')' => BidiClass::ON,
            _ => BidiClass::L,
        }
    }
}

/// Calls over a long text with brackets and isolates, for which the library allocates.
fn call_all() {
    let text = "a(\u{5D0})\u{2067}b".repeat(100);
    let info = BidiInfo::new_with_data_source(&Letters, &text, None);
    let paragraph = &info.paragraphs[0];
    assert!(!info.reorder_line(paragraph, 0..text.len()).is_empty());
    assert!(!info.visual_runs(paragraph, 0..text.len()).1.is_empty());
    let info = ParagraphBidiInfo::new_with_data_source(&Letters, &text, Some(Level::rtl()));
    assert_eq!(info.reordered_levels(0..text.len()).len(), text.len());
    let level = info.paragraph_level;
    let line = displayed::line(&info, level, 0..text.len(), DisplayOptions::default());
    assert_eq!(line.places.len(), text.chars().count());
    let (classes, levels) = (&info.original_classes, &info.levels);
    let maps = displayed::line_order(classes, levels, level, 0..text.len(), Moves::Marks);
    assert_eq!(maps.order.len(), text.len());
}

const VARIABLE: &str = "UNICODE_BIDI_FAILING_REQUEST";

fn run_with_failure(request: usize) -> Output {
    let program = std::env::current_exe().expect("the path of this program");
    let mut command = Command::new(program);
    command
        .env(VARIABLE, request.to_string())
        .env_remove("RUST_BACKTRACE");
    command.output().expect("the program runs again")
}

fn main() {
    if let Ok(request) = std::env::var(VARIABLE) {
        let request = request.parse().expect("a number");
        UNTIL_FAILURE.store(request, Ordering::Relaxed);
        call_all();
        UNTIL_FAILURE.store(NEVER, Ordering::Relaxed);
        return;
    }
    let mut failures = 0;
    loop {
        let output = run_with_failure(failures);
        if output.status.success() {
            break;
        }
        let message = String::from_utf8_lossy(&output.stderr);
        assert_eq!(
            output.status.signal(),
            Some(SIGABRT),
            "request {}: {}",
            failures,
            message
        );
        assert!(
            message.contains("memory allocation of"),
            "request {}: {}",
            failures,
            message
        );
        failures += 1;
    }
    assert!(failures > 0, "the library did not allocate");
    println!(
        "ok memory: each of {} requests of the library fails once, and ends the program",
        failures
    );
}
