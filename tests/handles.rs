//! Handles: how large they are, how many a text may have, and clones by the trait `Clone`.
use crate::steps::{count, made, part};
use arcbench_core::pool::PoolFault;
use arcbench_core::script::CopyFault;
use arcbench_core::tokens::TokensFault;
use arcintern::{SharedSymbol, Symbol};
use arcstr::block::{Down, Fixed, Owed, Shared};
use arcstr::{
    ArcStr, ArcStrBuilder, End, JsonFault, RangeFault, RawArcStr, Seen, StaticStr, StrRange,
    StrView, Substr, TextFault, literal,
};
use arcstr_count::{BlockSummary, HandleState, HandleSummary, Reply, Step, StepFault, Word};
use arcstr_world::{RunFault, World};
use std::alloc::{AllocError, Global};
use std::mem::size_of;
use std::test::Fail;

#[test]
fn the_types_have_their_sizes(ref rt: HostRuntime) {
    for (size, wanted, name) in [
        (size_of::<ArcStr>(), 24, "ArcStr"),
        (size_of::<RawArcStr>(), 24, "RawArcStr"),
        (size_of::<StaticStr>(), 24, "StaticStr"),
        (size_of::<Substr>(), 40, "Substr"),
        (size_of::<ArcStrBuilder>(), 48, "ArcStrBuilder"),
        (size_of::<StrView<'_>>(), 24, "StrView"),
        (size_of::<StrRange>(), 24, "StrRange"),
        (size_of::<Shared<5, Global>>(), 16, "Shared"),
        (size_of::<Fixed<Global>>(), 16, "Fixed"),
        (size_of::<Owed<Global>>(), 16, "Owed"),
        (size_of::<Down<Global>>(), 24, "Down"),
        (size_of::<Seen>(), 0, "Seen"),
        (size_of::<Symbol>(), 4, "Symbol"),
        (size_of::<SharedSymbol>(), 8, "SharedSymbol"),
        (size_of::<Step>(), 16, "Step"),
        (size_of::<Reply>(), 16, "Reply"),
        (size_of::<HandleSummary>(), 16, "HandleSummary"),
        (size_of::<BlockSummary>(), 16, "BlockSummary"),
        (size_of::<HandleState>(), 1, "HandleState"),
        (size_of::<Word>(), 8, "Word"),
        (size_of::<World<Global>>(), 56, "World"),
        (size_of::<TextFault>(), 16, "TextFault"),
        (size_of::<JsonFault>(), 1, "JsonFault"),
        (size_of::<RangeFault>(), 1, "RangeFault"),
        (size_of::<StepFault>(), 1, "StepFault"),
        (size_of::<RunFault>(), 1, "RunFault"),
        (size_of::<PoolFault>(), 1, "PoolFault"),
        (size_of::<CopyFault>(), 1, "CopyFault"),
        (size_of::<TokensFault>(), 1, "TokensFault"),
    ] {
        assert_eq!(rt; size, wanted, "{name}");
    }
}

/// A number of handles at which a text is still counted. The limit, `RC_MAX`, is too large for a
/// test.
const HANDLES: usize = 200_000;

#[test]
fn many_handles_are_counted_and_mark_nothing(ref rt: HostRuntime) -> Result<(), Fail> {
    let (text, mut handles) = (&made(rt, "foobar"), Vec::new(rt.alloc()));
    for _ in 1..HANDLES {
        handles.push(text.clone(rt))?;
    }
    assert_eq!(rt; count(text), Some(HANDLES));
    assert!(rt; !ArcStr::is_static(text));
    drop(handles);
    assert_eq!(rt; count(text), Some(1));
    Ok(())
}

#[test]
fn a_leaked_text_reads_on_without_its_handles(ref rt: HostRuntime) -> Result<(), Fail> {
    let text = made(rt, "foobar");
    let kept = text.leak();
    drop(text);
    assert_eq!(rt; (kept.as_str(), kept.literal()), ("foobar", None));
    let text = kept.to_arc_str();
    assert_eq!(rt; (count(&text), ArcStr::is_static(&text)), (None, true));
    let mut text = literal!("Wow!");
    for _ in 0..4 {
        text = text.clone(rt);
    }
    let kept = ArcStr::as_static(&text).ok_or("not static")?;
    assert_eq!(rt; kept.literal(), Some("Wow!"));
    Ok(())
}

#[test]
fn a_slice_outlives_the_handle_that_it_was_made_from(ref rt: HostRuntime) {
    let text = made(rt, "foobarbaz");
    let slice = part(rt, &text, 3..6);
    drop(text);
    assert_eq!(rt; (slice.as_str(), count(slice.parent())), ("bar", Some(1)));
}

/// Nothing is seen of a text that has no count.
#[test]
fn a_text_has_one_handle_on_its_block(ref rt: HostRuntime) {
    let text = made(rt, "foobar");
    let slice = part(rt, &text, 1..3);
    let (counted, seen) = ArcStr::strong_count_after(&text, &None);
    text.lives(&seen);
    let end = text.into_shared().map(|handle| handle.end().0);
    assert!(rt; (counted, end) == (Some(2), Some(End::Left)));
    assert_eq!(rt; count(slice.parent()), Some(1));
    let end = slice.into_shared().map(|handle| handle.end().0);
    assert!(rt; end == Some(End::Freed));
    assert!(rt; ArcStr::from_static("foo").into_shared().is_none());
}

#[test]
fn nothing_is_seen_of_a_literal(ref rt: HostRuntime) {
    let text = literal!("foo");
    assert!(rt; ArcStr::strong_count_after(&text, &None).1.is_none());
    assert!(rt; ArcStr::is_static_after(&text, &None).1.is_none());
    assert!(rt; text.leak_after(&None).1.is_none());
    assert!(rt; text.clone_after(rt, &None).1.is_none());
    assert!(rt; text.end_after(&None).1.is_none());
}

#[derive(Drop, Clone)]
struct Line {
    number: u32,
    text: ArcStr,
    field: Substr,
}

#[test]
fn a_derived_clone_is_another_handle(ref rt: HostRuntime) -> Result<(), Fail> {
    let text = made(rt, "a=é");
    let line = Line {
        number: 7,
        field: part(rt, &text, 2..),
        text,
    };
    let copy = line.clone()?;
    assert_eq!(rt;
        (copy.number, copy.text.as_str(), copy.field.as_str()),
        (7, "a=é", "é")
    );
    assert_eq!(rt; count(&line.text), Some(4));
    drop(copy);
    assert_eq!(rt; count(&line.text), Some(2));
    Ok(())
}

/// Clones the value by the trait `Clone`.
fn cloned<T: Clone>(value: &T) -> Result<T, AllocError> {
    value.clone()
}

#[test]
fn generic_code_clones_texts(ref rt: HostRuntime) -> Result<(), Fail> {
    let (text, mut texts) = (&made(rt, "foo"), Vec::new(rt.alloc()));
    texts.push(text.clone(rt))?;
    texts.push(literal!("bar"))?;
    let copies = cloned(&texts)?;
    assert!(rt; copies == texts);
    assert_eq!(rt; count(text), Some(3));
    text.leak();
    assert!(rt; ArcStr::is_static(&cloned(text)?));
    Ok(())
}
