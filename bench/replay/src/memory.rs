//! The memory of the proved side: its requests, counted, and one of them refused.
use std::cell::Cell;

/// What a request answers, as the kit's part in C lays it out.
#[repr(C)]
pub struct Tried {
    ok: bool,
    block: *mut u8,
}

unsafe extern "C" {
    fn __real_rattle_alloc(size: usize, alignment: usize) -> Tried;
    fn __real_rattle_realloc(block: *mut u8, kept: usize, size: usize, alignment: usize) -> Tried;
    fn __real_rattle_dealloc(block: *mut u8);
}

thread_local! {
    static REQUESTS: Cell<u64> = const { Cell::new(0) };
    static REFUSED: Cell<u64> = const { Cell::new(0) };
    static BLOCKS: Cell<i64> = const { Cell::new(0) };
}

/// Counts anew, and is to refuse that request of this thread, or none if it is 0.
pub fn begin(refused: u64) {
    REQUESTS.set(0);
    REFUSED.set(refused);
    BLOCKS.set(0);
}

/// How many requests were made since, and how many blocks were not given back.
pub fn counts() -> (u64, i64) {
    (REQUESTS.get(), BLOCKS.get())
}

/// Whether this request is the one to be refused.
fn refuses() -> bool {
    REQUESTS.set(REQUESTS.get() + 1);
    REQUESTS.get() == REFUSED.get()
}

fn refusal() -> Tried {
    Tried { ok: false, block: std::ptr::null_mut() }
}

#[unsafe(no_mangle)]
unsafe extern "C" fn __wrap_rattle_alloc(size: usize, alignment: usize) -> Tried {
    if refuses() {
        return refusal();
    }
    BLOCKS.set(BLOCKS.get() + 1);
    // SAFETY: the call is handed on.
    unsafe { __real_rattle_alloc(size, alignment) }
}

#[unsafe(no_mangle)]
unsafe extern "C" fn __wrap_rattle_realloc(block: *mut u8, kept: usize, size: usize, alignment: usize) -> Tried {
    if refuses() {
        return refusal();
    }
    // SAFETY: the call is handed on.
    unsafe { __real_rattle_realloc(block, kept, size, alignment) }
}

#[unsafe(no_mangle)]
unsafe extern "C" fn __wrap_rattle_dealloc(block: *mut u8) {
    BLOCKS.set(BLOCKS.get() - 1);
    // SAFETY: the call is handed on.
    unsafe { __real_rattle_dealloc(block) }
}
