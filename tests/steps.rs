//! What the tests of texts share: texts and slices, their counts, and a meeting of threads.
use arcstr::{ArcStr, StrRange, Substr};
use std::alloc::AllocGlobal;
use std::process::Abort;
use std::sync::Wait;
use std::sync::atomic::{AtomicUsize, Ordering};
use std::thread::yield_now;

/// Copies the text into a new `ArcStr`. Aborts if out of memory.
pub(crate) fn made(rt: &(impl Abort + AllocGlobal), text: &str) -> ArcStr {
    ArcStr::from_str(rt.alloc(), text).expect(rt, "no memory")
}

/// Returns the slice in the range, which is valid.
pub(crate) fn part<R: Into<StrRange>>(rt: &(impl Abort + Wait), text: &ArcStr, range: R) -> Substr {
    text.substr(rt, range).expect(rt, "no slice")
}

pub(crate) fn count(text: &ArcStr) -> Option<usize> {
    ArcStr::strong_count(text)
}

/// How often a thread looks for the others at most. After each look it lets another thread run,
/// since other programs may keep the threads from starting.
const LOOKS: u64 = 100_000_000;

/// Waits until so many threads have arrived. Returns whether they have.
pub(crate) fn all_arrive(arrived: &AtomicUsize, threads: usize) -> bool {
    arrived.fetch_add(1, Ordering::SeqCst);
    for _ in 0..LOOKS {
        if arrived.load(Ordering::SeqCst) >= threads {
            return true;
        }
        yield_now();
    }
    false
}
