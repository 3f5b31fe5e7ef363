//! Blocks: the memory that a call takes and frees, what runs without memory, and handles that
//! several threads clone, mark and drop.
use crate::steps::all_arrive;
use arcstr_block::{Down, End, Fixed, Shared, TextFault, joined_len};
use linked_list_allocator::LocalHeap;
use std::alloc::{AllocError, Allocator, Global};
use std::sync::Wait;
use std::sync::atomic::AtomicUsize;
use std::test::Fail;
use std::thread;
use std::thread::Threads;

/// A text of 64 bytes. Its block has 80, to which a heap adds nothing: a heap rounds sizes up to a
/// multiple of 16.
const TEXT: &str = "0123456789abcdef0123456789abcdef0123456789abcdef0123456789abcdef";

const BLOCK: usize = 80;

/// The size of the largest heap that does not hold the block.
const TOO_SMALL: usize = 64;

/// Returns the number of handles on the block, or `None` if it is marked static.
fn count<const LIMIT: u64, A: Allocator + Copy>(handle: &Shared<LIMIT, A>) -> Option<u64> {
    handle.look().0
}

/// Makes the text in each way, in a heap of this size. Each allocates its block alone, and then
/// runs its closure. Returns what is in use while each text lives, or `None` where memory is out.
fn makings(heap: &LocalHeap) -> [Option<usize>; 4] {
    let used = |made: Result<Shared<5, &LocalHeap>, TextFault>| match made {
        Ok(text) if text.as_str() == TEXT && count(&text) == Some(1) => Some(heap.used()),
        Err(TextFault::Memory) if heap.used() == 0 => None,
        _ => Some(0),
    };
    let sixteen = "0123456789abcdef";
    let parts = [&sixteen[..15], &sixteen[..15], &sixteen[..15], sixteen];
    let mut before = heap.free();
    let filled = Shared::init(heap, 64, |bytes| {
        before -= heap.free();
        bytes.copy_from_slice(TEXT.as_bytes());
    });
    let filled = used(filled).map(|used| if before == BLOCK { used } else { 0 });
    [
        filled,
        used(Shared::from_text(heap, TEXT)),
        used(Shared::repeat(heap, sixteen, 4)),
        used(Shared::join(heap, &parts, "f", joined_len(&parts, "f").unwrap_or(0))),
    ]
}

#[test]
fn a_text_takes_exactly_its_block(ref rt: HostRuntime) -> Result<(), Fail> {
    let heap = &LocalHeap::new(rt.alloc(), BLOCK)?;
    assert_eq!(rt; (makings(heap), heap.used()), ([Some(BLOCK); 4], 0));
    let heap = &LocalHeap::new(rt.alloc(), TOO_SMALL)?;
    assert_eq!(rt; makings(heap), [None; 4]);
    Ok(())
}

/// An allocation failure is reported before bytes that are not UTF-8: the closure that leaves such
/// bytes does not run. A refused fill frees its block.
#[test]
fn a_closure_runs_if_there_is_memory(ref rt: HostRuntime) -> Result<(), Fail> {
    for (size, fault) in [(TOO_SMALL, TextFault::Memory), (BLOCK, TextFault::Utf8(63))] {
        let heap = &LocalHeap::new(rt.alloc(), size)?;
        let mut ran = false;
        let made = Shared::<5, _>::init(heap, 64, |bytes| {
            ran = true;
            bytes[63] = 255;
        });
        assert_eq!(rt; (made.err(), ran), (Some(fault), size == BLOCK));
        assert_eq!(rt; heap.used(), 0);
    }
    Ok(())
}

/// There may be `usize::MAX` copies of an empty text. They are not made one by one.
#[test]
fn texts_of_all_sizes_are_read_back(ref rt: HostRuntime) -> Result<(), Fail> {
    let long = Shared::<5, _>::repeat(rt.alloc(), "abcdefghijk", 100_000)?;
    for len in [0, 1, 7, 8, 9, 64, 4096, 1_000_000] {
        let text = long.as_str().get(..len).ok_or("too short")?;
        let made = Shared::<5, _>::from_text(rt.alloc(), text)?;
        assert_eq!(rt;
            (made.len(), made.as_str() == text, count(&made)),
            (len, true, Some(1))
        );
    }
    let none = Shared::<5, _>::repeat(rt.alloc(), "", usize::MAX)?;
    assert_eq!(rt; (none.len(), count(&none)), (0, Some(1)));
    Ok(())
}

#[test]
fn the_last_handle_frees_the_block(ref rt: HostRuntime) -> Result<(), Fail> {
    let heap = &LocalHeap::new(rt.alloc(), 4096)?;
    let first = Shared::<5, _>::from_text(heap, "aé")?;
    let (second, third) = (first.up(rt), first.up(rt));
    drop(third);
    let (end, seen) = first.end();
    assert_eq!(rt;
        (end, heap.used() > 0, count(&second)),
        (End::Left, true, Some(1))
    );
    assert_eq!(rt; (second.end_after(&seen).0, heap.used()), (End::Freed, 0));
    let text = Shared::<5, _>::from_text(heap, "aé")?;
    match text.down().0 {
        Down::Owes(owed) => drop(owed.free()),
        Down::Left | Down::Ended => panic!(rt; "nothing is owed"),
    }
    assert_eq!(rt; heap.used(), 0);
    let text = Shared::<5, _>::from_text(heap, "aé")?;
    let (fixed, other) = (text.mark(), text.up(rt));
    assert_eq!(rt; (text.end().0, other.end().0), (End::Ended, End::Ended));
    assert_eq!(rt; (heap.used() > 0, fixed.as_str()), (true, "aé"));
    Ok(())
}

/// How many bytes of a heap are in use after two clones and three drops of one text.
fn used_after<const LIMIT: u64>(rt: &impl Wait, heap: &LocalHeap) -> Result<usize, TextFault> {
    let first = Shared::<LIMIT, &LocalHeap>::from_text(heap, "foobar")?;
    let second = first.up(rt);
    let third = second.up(rt);
    drop(first);
    drop(third);
    drop(second);
    Ok(heap.used())
}

#[test]
fn all_memory_is_given_back(ref rt: HostRuntime) -> Result<(), Fail> {
    let heap = &LocalHeap::new(rt.alloc(), 4096)?;
    assert_eq!(rt;
        (used_after::<5>(rt, heap)?, used_after::<2>(rt, heap)?),
        (0, 0)
    );
    // A limit that a clone crosses marks the block, which is never freed.
    assert!(rt; used_after::<1>(rt, heap)? > 0);
    Ok(())
}

#[test]
fn a_clone_of_few_tries_counts_marks_and_gives_up(ref rt: HostRuntime) -> Result<(), Fail> {
    let text = &Shared::<1, _>::from_text(rt.alloc(), "aé")?;
    assert!(rt; text.try_up(0).is_none() && count(text) == Some(1));
    let second = text.try_up(1);
    assert_eq!(rt; (second.is_some(), count(text)), (true, Some(2)));
    assert!(rt; text.try_up(1).is_some() && count(text).is_none());
    assert!(rt; text.try_up(0).is_some());
    Ok(())
}

/// Two handles that a heap of 16 bytes has no room for are dropped when the error is converted to a
/// fault.
#[test]
fn what_could_not_be_stored_is_dropped(ref rt: HostRuntime) -> Result<(), Fail> {
    let heap = LocalHeap::new(rt.alloc(), 16)?;
    let text = &Shared::<5, _>::from_text(rt.alloc(), "foobar")?;
    let refused = Box::new(&heap, (text.up(rt), text.up(rt)))
        .err()
        .ok_or("there is room")?;
    assert_eq!(rt; count(text), Some(3));
    assert_eq!(rt;
        (TextFault::from(refused), count(text)),
        (TextFault::Memory, Some(1))
    );
    Ok(())
}

/// Clones the handle once both threads have arrived. Returns whether they have.
fn up_together<const LIMIT: u64, R: Wait>(
    rt: &R,
    handle: &Shared<LIMIT, Global>,
    arrived: &AtomicUsize,
) -> (Shared<LIMIT, Global>, bool) {
    let together = all_arrive(arrived, 2);
    (handle.up(rt), together)
}

/// The count after two threads made one clone each, before any drop; whether both clones read the
/// text, and whether the two threads ran at once.
fn count_after_two<const LIMIT: u64, R: Threads + Wait + Sync>(
    rt: &R,
    alloc: Global,
) -> Result<(Option<u64>, bool, bool), TextFault> {
    let (first, gate) = (
        &Shared::<LIMIT, _>::from_text(alloc, "foobar")?,
        &AtomicUsize::new(0),
    );
    let ((second, met), (third, also_met)) = thread::join(
        rt,
        || up_together(rt, first, gate),
        || up_together(rt, first, gate),
    );
    let read = second.as_str() == "foobar" && third.as_str() == "foobar";
    Ok((count(first), read, met && also_met))
}

#[test]
fn limits_are_crossed_by_threads(ref rt: HostRuntime) -> Result<(), Fail> {
    assert_eq!(rt;
        count_after_two::<0, _>(rt, rt.alloc())?,
        (None, true, true)
    );
    assert_eq!(rt;
        count_after_two::<1, _>(rt, rt.alloc())?,
        (None, true, true)
    );
    assert_eq!(rt;
        count_after_two::<2, _>(rt, rt.alloc())?,
        (Some(3), true, true)
    );
    Ok(())
}

/// Marks the block, and ends the handle.
fn marks(handle: Shared<5, Global>) -> Fixed<Global> {
    handle.mark()
}

/// One thread marks a block, and another drops its handle.
#[test]
fn a_permanent_block_outlives_two_threads(ref rt: HostRuntime) -> Result<(), Fail> {
    for _ in 0..1000 {
        let first = Shared::<5, _>::from_text(rt.alloc(), "foobar")?;
        let second = first.up(rt);
        let (fixed, _) = thread::join(rt, move || marks(first), move || drop(second));
        assert_eq!(rt; fixed.as_str(), "foobar");
    }
    Ok(())
}

/// Clones 150,000 times once four threads have arrived, and keeps 100,000 clones, so that a count
/// that an exchange did not find never comes back.
fn clones<R: Wait>(
    rt: &R,
    alloc: Global,
    handle: &Shared<1_000_000, Global>,
    arrived: &AtomicUsize,
) -> Result<Option<Vec<Shared<1_000_000, Global>>>, AllocError> {
    let mut kept = Vec::new(alloc);
    if !all_arrive(arrived, 4) {
        return Ok(None);
    }
    for _ in 0..50_000 {
        let Some(clone) = handle.try_up(1000) else {
            return Ok(None)
        };
        kept.push(clone)?;
        drop(handle.up(rt));
        kept.push(handle.up(rt))?;
    }
    Ok(Some(kept))
}

/// A compare-exchange that fails because of another thread's step is repeated with the count that
/// it found, and does not mark the block.
#[test]
fn four_threads_leave_one(ref rt: HostRuntime) -> Result<(), Fail> {
    let (text, alloc) = (&Shared::from_text(rt.alloc(), "foobar")?, rt.alloc());
    let gate = &AtomicUsize::new(0);
    let lists = thread::map_indices(rt, alloc, 4, &|_| clones(rt, alloc, text, gate))?;
    assert!(rt; lists.iter().all(|list| matches!(list, Ok(Some(_)))));
    assert_eq!(rt; count(text), Some(400_001));
    drop(lists);
    assert_eq!(rt; count(text), Some(1));
    Ok(())
}

/// Returns the value, whose type must be `Send` and `Sync`.
fn crossing<T: Send + Sync>(value: T) -> T {
    value
}

#[test]
fn handles_and_what_is_owed_may_cross_threads(ref rt: HostRuntime) -> Result<(), Fail> {
    let text = &crossing(Shared::<5, _>::from_text(rt.alloc(), "foobar")?);
    let (fixed, _) = crossing((text.mark(), text.look().1));
    assert_eq!(rt; fixed.again().as_str(), text.as_str());
    match crossing(Shared::<5, _>::from_text(rt.alloc(), "foobar")?.down().0) {
        Down::Owes(owed) => owed.give_back(),
        Down::Left | Down::Ended => panic!(rt; "nothing is owed"),
    }
    Ok(())
}
