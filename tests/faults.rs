//! Faults: their numbers, what they print, their kinds as an `io::Error`, and what `?` converts.
use crate::steps::{count, made};
use arcbench_core::pool::PoolFault;
use arcbench_core::script::CopyFault;
use arcintern::InternFault;
use arcstr::{ArcStr, JsonFault, RangeFault, ReadFault, TextFault};
use arcstr_count::{RC_MAX, StepFault};
use arcstr_world::{RunFault, World, run};
use serde_json::Value;
use std::alloc::{AllocFailed, Global};
use std::io;
use std::io::ErrorKind;
use std::process::Abort;
use std::test::Fail;

fn check_text(rt: &impl Abort, text: &str, wanted: &str) {
    assert_eq!(rt; text, wanted);
}

#[test]
fn faults_print_what_is_wrong(ref rt: HostRuntime) -> Result<(), Fail> {
    let alloc = rt.alloc();
    macro_rules! check_printed {
        ($($fault:expr => $wanted:expr),+ $(,)?) => {
            $(check_text(rt, format!(in alloc; "{}", $fault)?.as_str(), $wanted);)+
        };
    }
    check_printed! {
        TextFault::Length => "text is too long",
        TextFault::Memory => "out of memory",
        TextFault::Utf8(3) => "bytes are not UTF-8 from place 3",
        ReadFault::from(TextFault::Utf8(5)) => "bytes are not UTF-8 from place 5",
        JsonFault::NotText => "value is not a text",
        JsonFault::Length => "text is too long",
        JsonFault::Memory => "out of memory",
        RangeFault::OutOfOrder => "range start is after its end",
        RangeFault::PastEnd => "range ends past the text",
        RangeFault::OffBoundary => "range cuts a character",
        InternFault::Full => "interner is full",
        InternFault::Length => "text is too long",
        InternFault::Memory => "out of memory",
        StepFault::NoHandle => "NoHandle",
        StepFault::InDrop => "InDrop",
        StepFault::NotInDrop => "NotInDrop",
        StepFault::NotOwing => "NotOwing",
        StepFault::IsRaw => "IsRaw",
        StepFault::NotRaw => "NotRaw",
        RunFault::LimitTooLarge => "limit too large",
        RunFault::Memory => "out of memory",
        PoolFault::Memory => "out of memory",
        PoolFault::NoThread => "no thread",
        CopyFault::LimitTooLarge => "limit too large",
        CopyFault::Memory => "out of memory",
        CopyFault::Io => "io",
    }
    Ok(())
}

#[test]
fn faults_are_errors_of_reading_and_writing(ref rt: HostRuntime) -> Result<(), Fail> {
    for (error, kind, printed) in [
        (
            io::Error::from(TextFault::Length),
            ErrorKind::InvalidInput,
            "text is too long",
        ),
        (
            io::Error::from(TextFault::Memory),
            ErrorKind::OutOfMemory,
            "out of memory",
        ),
        (
            io::Error::from(TextFault::Utf8(3)),
            ErrorKind::InvalidData,
            "bytes are not UTF-8",
        ),
        (
            io::Error::from(JsonFault::NotText),
            ErrorKind::InvalidData,
            "value is not a text",
        ),
        (
            io::Error::from(JsonFault::Length),
            ErrorKind::InvalidInput,
            "text is too long",
        ),
        (
            io::Error::from(JsonFault::Memory),
            ErrorKind::OutOfMemory,
            "out of memory",
        ),
        (
            io::Error::from(RangeFault::PastEnd),
            ErrorKind::InvalidInput,
            "range ends past the text",
        ),
        (
            io::Error::from(RunFault::LimitTooLarge),
            ErrorKind::InvalidInput,
            "limit too large",
        ),
        (
            io::Error::from(RunFault::Memory),
            ErrorKind::OutOfMemory,
            "out of memory",
        ),
        (
            io::Error::from(InternFault::Full),
            ErrorKind::InvalidInput,
            "interner is full",
        ),
        (
            io::Error::from(InternFault::Length),
            ErrorKind::InvalidInput,
            "text is too long",
        ),
        (
            io::Error::from(InternFault::Memory),
            ErrorKind::OutOfMemory,
            "out of memory",
        ),
        (
            io::Error::from(ReadFault::from(TextFault::Utf8(5))),
            ErrorKind::InvalidData,
            "bytes are not UTF-8",
        ),
    ] {
        assert_eq!(rt; error.kind(), kind, "{printed}");
        assert_eq!(rt; format!(in rt.alloc(); "{error}")?.as_str(), printed);
    }
    Ok(())
}

/// Returns a list with two texts, of which a JSON value gives one. The list and the texts allocate.
fn listed(alloc: Global, text: &str, value: &Value) -> Result<Vec<ArcStr>, JsonFault> {
    let mut texts = Vec::with_capacity(alloc, 1)?;
    texts.push(ArcStr::from_json(alloc, value)?)?;
    texts.push(ArcStr::from_json(alloc, &Value::try_from_str(alloc, text)?)?)?;
    Ok(texts)
}

/// Returns a list with a text.
fn copied(alloc: Global, text: &str) -> Result<Vec<ArcStr>, TextFault> {
    let mut texts = Vec::with_capacity(alloc, 1)?;
    texts.push(ArcStr::from_str(alloc, text)?)?;
    Ok(texts)
}

#[test]
fn a_list_and_its_texts_have_one_fault(ref rt: HostRuntime) -> Result<(), Fail> {
    let (alloc, value) = (rt.alloc(), Value::try_from_str(rt.alloc(), "foo")?);
    assert_eq!(rt; listed(alloc, "bar", &value)?.len(), 2);
    assert_eq!(rt; copied(alloc, "bar")?.len(), 1);
    assert_eq!(rt;
        listed(alloc, "bar", &Value::Null).err(),
        Some(JsonFault::NotText)
    );
    Ok(())
}

#[test]
fn what_was_not_stored_is_dropped(ref rt: HostRuntime) {
    let text = &made(rt, "foo");
    let refused = || AllocFailed {
        value: text.clone(rt),
    };
    assert_eq!(rt; TextFault::from(refused()), TextFault::Memory);
    assert_eq!(rt; JsonFault::from(refused()), JsonFault::Memory);
    assert_eq!(rt; InternFault::from(refused()), InternFault::Memory);
    assert_eq!(rt; count(text), Some(1));
}

#[test]
fn the_limit_of_a_model_is_at_most_the_greatest(ref rt: HostRuntime) -> Result<(), Fail> {
    assert!(rt; run(rt.alloc(), RC_MAX, &[])?.is_empty());
    assert_eq!(rt;
        run(rt.alloc(), RC_MAX + 1, &[]).err(),
        Some(RunFault::LimitTooLarge)
    );
    assert_eq!(rt; World::new(rt.alloc(), RC_MAX)?.given(0), 0);
    assert_eq!(rt;
        World::new(rt.alloc(), RC_MAX + 1).err(),
        Some(RunFault::LimitTooLarge)
    );
    Ok(())
}
