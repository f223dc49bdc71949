//! A fuzz target: any bytes are an image to check, a list of calls to replay, a book with its ring and calls on it, or interval
//! records, and what the compiled functions do with them is held to `independent`. Every lent slice ends at a page that nobody
//! may touch, or begins after one, so that a read past it is noticed too.

mod bills;
mod bytes;
mod images;
mod intervals;
mod pages;
mod replays;
mod typed;

use pages::Pages;
use std::cell::RefCell;

/// What a run met: the numbers answered, by the name of what answered them.
pub type Met = Vec<(&'static str, u32)>;

/// Slices that a call lends at most.
const SLICES: usize = 8;

thread_local! {
    static ROOM: RefCell<Vec<Pages>> = RefCell::new((0..SLICES).map(|_| Pages::new()).collect());
}

/// One run over any bytes; panics where something differs. The first byte says what the others are.
pub fn run(data: &[u8]) -> Met {
    let Some((which, rest)) = data.split_first() else {
        return Met::new();
    };
    ROOM.with_borrow_mut(|room| match which % 4 {
        0 => images::run(room, rest),
        1 => replays::run(room, rest),
        2 => typed::run(room, rest),
        _ => intervals::run(room, rest),
    })
}

/// The entry that libFuzzer calls.
///
/// # Safety
///
/// The bytes must be readable for the length, as libFuzzer lends them.
#[cfg(feature = "libfuzzer")]
#[no_mangle]
pub unsafe extern "C" fn LLVMFuzzerTestOneInput(bytes: *const u8, length: usize) -> i32 {
    let data = match length {
        0 => &[][..],
        // SAFETY: the caller's promise above; a pointer to bytes is always aligned.
        _ => unsafe { std::slice::from_raw_parts(bytes, length) },
    };
    // A difference must end the process, and may not unwind into C.
    if std::panic::catch_unwind(|| run(data)).is_err() {
        std::process::abort();
    }
    0
}
