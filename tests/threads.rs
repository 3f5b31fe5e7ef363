//! Texts, slices and builders that are sent to threads and shared between them.
use crate::steps::{count, made, part};
use arcstr::{ArcStr, ArcStrBuilder, JsonFault, Substr};
use std::sync::Wait;
use std::test::Fail;
use std::thread;

const ROUNDS: u32 = 100_000;

/// Clones the text in both ways and drops the clones, many times. Returns the length of the last
/// clone, or 0 if a clone by the trait failed.
fn cloned_often(rt: &impl Wait, text: &ArcStr) -> usize {
    let mut length = 0;
    for _ in 0..ROUNDS {
        length = text.clone(rt).len();
        if Clone::clone(text).is_err() {
            return 0;
        }
    }
    length
}

#[test]
fn two_threads_clone_and_drop_one_text(ref rt: HostRuntime) {
    let text = &made(rt, "foobar");
    let lengths = thread::join(rt, || cloned_often(rt, text), || cloned_often(rt, text));
    assert_eq!(rt;
        (lengths, text.as_str(), count(text)),
        ((6, 6), "foobar", Some(1))
    );
}

#[test]
fn a_text_and_a_static_text_move_to_a_thread(ref rt: HostRuntime) -> Result<(), Fail> {
    let text = made(rt, "foobar");
    let kept = text.leak();
    let reader = thread::spawn(rt, move || (text.len(), kept.len()))?;
    assert_eq!(rt; reader.join(rt), (6, 6));
    Ok(())
}

#[test]
fn a_builder_moves_from_thread_to_thread(ref rt: HostRuntime) -> Result<(), Fail> {
    let mut builder = ArcStrBuilder::with_capacity(rt.alloc(), 6)?;
    builder.push('f')?;
    let writer = thread::spawn(rt, move || {
        let is_pushed = builder.push_str("ooba").is_ok();
        (builder, is_pushed)
    })?;
    let (mut builder, is_pushed) = writer.join(rt);
    assert!(rt; is_pushed);
    builder.push('r')?;
    let text = thread::spawn(rt, move || builder.finish())?.join(rt)?;
    assert_eq!(rt; (text.as_str(), count(&text)), ("foobar", Some(1)));
    Ok(())
}

/// Returns the value, whose type must be `Send` and `Sync`.
fn crossing<T: Send + Sync>(value: T) -> T {
    value
}

#[test]
fn raw_handles_static_texts_and_faults_may_cross_threads(ref rt: HostRuntime) {
    assert_eq!(rt; crossing(made(rt, "foobar").leak()).as_str(), "foobar");
    let raw = crossing(ArcStr::into_raw(made(rt, "foobar")));
    assert_eq!(rt; ArcStr::from_raw(raw).as_str(), "foobar");
    assert_eq!(rt; crossing(JsonFault::Memory), JsonFault::Memory);
}

#[test]
fn a_slice_is_read_where_its_parents_handle_is_not(ref rt: HostRuntime) -> Result<(), Fail> {
    let text = made(rt, "foobarbaz");
    let slice = part(rt, &text, 3..6);
    let owner = thread::spawn(rt, move || drop(text))?;
    let reader = thread::spawn(rt, move || (slice.len(), slice.as_str() == "bar"))?;
    owner.join(rt);
    assert_eq!(rt; reader.join(rt), (3, true));
    Ok(())
}

#[test]
fn two_threads_read_one_slice(ref rt: HostRuntime) -> Result<(), Fail> {
    let slice = &Substr::from_str(rt.alloc(), "foobar")?;
    let read = thread::join(
        rt,
        || slice.as_str() == "foobar",
        || slice.clone(rt).as_str() == "foobar",
    );
    assert_eq!(rt; (read, count(slice.parent())), ((true, true), Some(1)));
    Ok(())
}
