//! Texts that closures, builders and bytes make: what runs, what is refused, and which fault is
//! told.
use crate::steps::count;
use arcstr::{ArcStr, ArcStrBuilder, Substr, TextFault};
use std::str;
use std::test::Fail;

/// The smallest length that is too long.
const TOO_LONG: usize = 9_223_372_036_854_775_783;

/// A closure runs once there is memory, on zero bytes.
#[test]
fn a_closure_runs_once_there_is_memory(ref rt: HostRuntime) {
    for (len, wanted) in [
        (3, Ok("\0\0\0")),
        (0, Ok("")),
        (TOO_LONG, Err(TextFault::Length)),
        (TOO_LONG - 1, Err(TextFault::Memory)),
    ] {
        let mut given = None;
        let made = ArcStr::init_with(rt.alloc(), len, |bytes| given = Some(bytes.len()));
        assert_eq!(rt; made.as_deref(), wanted.as_ref().copied());
        assert_eq!(rt; given, if wanted.is_ok() { Some(len) } else { None });
    }
    let made = ArcStr::init_with(rt.alloc(), 5, |bytes| bytes[2] = 255);
    assert_eq!(rt; made.err(), Some(TextFault::Utf8(2)));
}

#[test]
fn lengths_are_refused_before_memory(ref rt: HostRuntime) -> Result<(), Fail> {
    let alloc = rt.alloc();
    for (text, copies, fault) in [
        ("A", usize::MAX, Some(TextFault::Length)),
        ("ab", 9_223_372_036_854_775_808, Some(TextFault::Length)),
        ("A", TOO_LONG, Some(TextFault::Length)),
        ("A", TOO_LONG - 1, Some(TextFault::Memory)),
        ("", usize::MAX, None),
    ] {
        assert_eq!(rt; ArcStr::try_repeat(alloc, text, copies).err(), fault);
        assert_eq!(rt; ArcStr::repeat(alloc, text, copies).err(), fault);
    }
    for (capacity, fault) in [
        (TOO_LONG, TextFault::Length),
        (TOO_LONG - 1, TextFault::Memory),
    ] {
        assert_eq!(rt;
            ArcStrBuilder::with_capacity(alloc, capacity).err(),
            Some(fault)
        );
        let mut builder = ArcStrBuilder::new(alloc);
        builder.push_str("foo")?;
        assert_eq!(rt; builder.reserve(capacity - 3), Err(fault));
        assert_eq!(rt; (builder.as_str(), builder.capacity()), ("foo", 64));
        builder.push_str("bar")?;
        assert_eq!(rt; builder.finish()?.as_str(), "foobar");
    }
    Ok(())
}

/// A builder grows from 64 bytes on by eight up to 128 MiB, and then by two.
#[test]
fn the_capacity_grows_by_eight(ref rt: HostRuntime) -> Result<(), Fail> {
    let mut builder = ArcStrBuilder::new(rt.alloc());
    let rest = ArcStr::repeat(rt.alloc(), "b", 63)?;
    for (text, capacity) in [("", 0), ("a", 64), (rest.as_str(), 64), ("c", 512)] {
        builder.push_str(text)?;
        assert_eq!(rt; builder.capacity(), capacity);
    }
    builder.reserve(5000)?;
    assert_eq!(rt; (builder.len(), builder.capacity()), (65, 5065));
    let text = builder.finish()?;
    assert_eq!(rt; (text.len(), count(&text)), (65, Some(1)));
    for (capacity, grown) in [(16, 128), (20, 128), (100, 200), (128, 256)] {
        let mut large = ArcStrBuilder::with_capacity(rt.alloc(), capacity << 20)?;
        large.reserve((capacity << 20) + 1)?;
        assert_eq!(rt; large.capacity(), grown << 20);
    }
    Ok(())
}

#[test]
fn a_builder_without_text_makes_the_empty_literal(ref rt: HostRuntime) -> Result<(), Fail> {
    let alloc = rt.alloc();
    assert!(rt; ArcStr::is_static(&ArcStrBuilder::new(alloc).finish()?));
    assert!(rt; ArcStr::is_static(&ArcStrBuilder::with_capacity(alloc, 5)?.finish()?));
    assert!(rt; ArcStr::is_static(&ArcStrBuilder::new(alloc).fill("")));
    Ok(())
}

/// One character at each edge of the ranges of RFC 3629.
const EDGES: &[u8] = b"\x00\x7f\xc2\x80\xdf\xbf\
    \xe0\xa0\x80\xe1\x80\x80\xec\xbf\xbf\xed\x9f\xbf\xee\x80\x80\xef\xbf\xbf\
    \xf0\x90\x80\x80\xf1\x80\x80\x80\xf3\xbf\xbf\xbf\xf4\x8f\xbf\xbf";

/// Bytes that are no text, and the length of the text before them. All but the last begin just
/// outside an edge of RFC 3629, or are cut short.
const OUTSIDE: [(&[u8], usize); 25] = [
    (b"\x80", 0),
    (b"\xbf", 0),
    (b"\xc0\x80", 0),
    (b"\xc1\xbf", 0),
    (b"\xc2\x7f", 0),
    (b"\xc2\xc0", 0),
    (b"\xe0\x9f\xbf", 0),
    (b"\xed\xa0\x80", 0),
    (b"\xed\xbf\xbf", 0),
    (b"\xe1\x7f\x80", 0),
    (b"\xe1\xc0\x80", 0),
    (b"\xe1\x80\x7f", 0),
    (b"\xe1\x80\xc0", 0),
    (b"\xf0\x8f\xbf\xbf", 0),
    (b"\xf4\x90\x80\x80", 0),
    (b"\xf5\x80\x80\x80", 0),
    (b"\xff\xbf\xbf\xbf", 0),
    (b"\xf1\x80\x80\x7f", 0),
    (b"\xf1\x80\x80\xc0", 0),
    (b"\xc2", 0),
    (b"a\xc3", 1),
    (b"a\xe1\x80", 1),
    (b"\xc3\xa9\xf1\x80\x80", 2),
    (b"\xe2\x82\xac\xf0", 3),
    (b"\xf0\x9f\x98\x80\xff", 4),
];

#[test]
fn bytes_are_a_text_as_rfc_3629_says(ref rt: HostRuntime) -> Result<(), Fail> {
    let alloc = rt.alloc();
    assert_eq!(rt; ArcStr::from_utf8(alloc, EDGES)?.as_bytes(), EDGES);
    assert_eq!(rt; ArcStr::read_from(alloc, EDGES)?.as_bytes(), EDGES);
    let slice = Substr::try_from(EDGES.to_vec(alloc)?)?;
    assert_eq!(rt; (slice.as_bytes(), slice.range()), (EDGES, 0..EDGES.len()));
    let slice = Substr::try_from(String::from_str(alloc, slice.as_str())?)?;
    assert_eq!(rt; (slice.as_bytes(), count(slice.parent())), (EDGES, Some(1)));
    for (bytes, place) in OUTSIDE {
        let fault = Some(TextFault::Utf8(place));
        assert_eq!(rt; ArcStr::from_utf8(alloc, bytes).err(), fault, "{bytes:?}");
        assert_eq!(rt; ArcStr::try_from(bytes.to_vec(alloc)?).err(), fault);
        assert_eq!(rt; Substr::try_from(bytes.to_vec(alloc)?).err(), fault);
        let mut builder = ArcStrBuilder::new(alloc);
        assert!(rt; builder.read_from(&mut { bytes }).is_err());
        assert_eq!(rt;
            builder.as_str(),
            str::from_utf8(&bytes[..place])?,
            "{bytes:?}"
        );
    }
    Ok(())
}
