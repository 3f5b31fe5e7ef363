//! Reading from readers and files: which fault is found first, and what a reader may give.
use crate::steps::count;
use arcstr::{ArcStr, ArcStrBuilder, ReadFault, TextFault};
use std::io::{ErrorKind, Read};
use std::test::Fail;
use std::{fs, io};

/// Gives at most `most` bytes at a time. The read of the number `fails_at` fails with this error.
#[derive(Drop)]
struct Pieces<'a> {
    rest: &'a [u8],
    most: usize,
    fails_at: Option<usize>,
    error: io::Error,
}

impl Read for Pieces<'_> {
    fn read(&mut self, buf: &mut [u8]) -> io::Result<usize> {
        if self.fails_at == Some(0) {
            self.fails_at = None;
            return Err(self.error);
        }
        self.fails_at = self.fails_at.map(|number| number - 1);
        let count = self.rest.len().min(buf.len()).min(self.most);
        buf[..count].copy_from_slice(&self.rest[..count]);
        self.rest = &self.rest[count..];
        Ok(count)
    }
}

fn in_pieces(bytes: &[u8], most: usize) -> Pieces<'_> {
    Pieces {
        rest: bytes,
        most,
        fails_at: None,
        error: io::Error::other("the plug is out"),
    }
}

fn failing(bytes: &[u8], fails_at: usize, kind: ErrorKind) -> Pieces<'_> {
    let error = io::Error::new(kind, "the plug is out");
    Pieces {
        fails_at: Some(fails_at),
        error,
        ..in_pieces(bytes, 2)
    }
}

/// What was read, in words.
fn told(read: &Result<ArcStr, ReadFault>) -> (Option<&str>, Option<TextFault>, Option<ErrorKind>) {
    match read {
        Ok(text) => (Some(text.as_str()), None, None),
        Err(ReadFault::Text(fault)) => (None, Some(*fault), None),
        Err(ReadFault::Io(error)) => (None, None, Some(error.kind())),
    }
}

/// Reads of 1 to 5 bytes read what `from_utf8` copies, or find its fault.
#[test]
fn texts_are_read_whatever_a_read_gives(ref rt: HostRuntime) {
    let texts: [&[u8]; 10] = [
        b"",
        "aé€😀é€😀z".as_bytes(),
        b"a\xff",
        b"a\xc3",
        b"\xe2\x82",
        b"ab\xf0\x9f\x98",
        b"ab\xf0\x9f\x98c",
        b"\xc3\xa9\xed\xa0\x80",
        b"\xc3\xa9\x80\x80\x80\x80",
        b"ab\xf4\x90\x80\x80",
    ];
    for bytes in texts {
        let wanted = ArcStr::from_utf8(rt.alloc(), bytes).map_err(ReadFault::from);
        for most in 1..6 {
            let read = ArcStr::read_from(rt.alloc(), in_pieces(bytes, most));
            assert_eq!(rt; told(&read), told(&wanted), "{bytes:?} by {most}");
        }
    }
}

/// One read takes at most 16,384 bytes, so a character may lie in two.
#[test]
fn characters_across_two_chunks_are_read(ref rt: HostRuntime) -> Result<(), Fail> {
    for cut in 16_380..16_386 {
        let part = "7".repeat(rt.alloc(), cut)?;
        let text = format!(in rt.alloc(); "{part}é€😀{part}")?;
        let read = ArcStr::read_from(rt.alloc(), text.as_bytes())?;
        assert_eq!(rt; (read.as_str(), count(&read)), (text.as_str(), Some(1)));
    }
    Ok(())
}

/// An interrupted read is tried again. Any other fault ends the call, and keeps its message.
#[test]
fn a_read_that_fails_is_the_fault(ref rt: HostRuntime) -> Result<(), Fail> {
    let bytes = "foobaré".as_bytes();
    for number in 0..5 {
        let read = ArcStr::read_from(rt.alloc(), failing(bytes, number, ErrorKind::Interrupted))?;
        assert_eq!(rt; read.as_str(), "foobaré");
        for kind in [
            ErrorKind::PermissionDenied,
            ErrorKind::WouldBlock,
            ErrorKind::TimedOut,
            ErrorKind::UnexpectedEof,
            ErrorKind::InvalidData,
            ErrorKind::OutOfMemory,
            ErrorKind::Other,
        ] {
            let read = ArcStr::read_from(rt.alloc(), failing(bytes, number, kind));
            assert_eq!(rt; told(&read), (None, None, Some(kind)), "read {number}");
            let error = read.err().ok_or("a text")?;
            let (printed, kind) = (
                format!(in rt.alloc(); "{error}")?,
                io::Error::from(error).kind(),
            );
            assert_eq!(rt;
                (printed.as_str(), told(&Err(error)).2),
                ("the plug is out", Some(kind))
            );
        }
    }
    Ok(())
}

/// A fault of the bytes is found before a later fault of the reader, and after an earlier one. The
/// builder keeps what came before it.
#[test]
fn the_first_of_two_faults_is_told(ref rt: HostRuntime) -> Result<(), Fail> {
    let bytes = b"ba\xffrrr";
    for (number, kept, fault) in [(0, "foo", None), (1, "fooba", None), (2, "fooba", Some(5))] {
        let mut builder = ArcStrBuilder::new(rt.alloc());
        builder.push_str("foo")?;
        let read = builder.read_from(&mut failing(bytes, number, ErrorKind::WouldBlock));
        let kind = if fault.is_some() {
            None
        } else {
            Some(ErrorKind::WouldBlock)
        };
        let read = read.map(|()| ArcStr::new());
        assert_eq!(rt;
            told(&read),
            (None, fault.map(TextFault::Utf8), kind),
            "read {number}"
        );
        assert_eq!(rt; builder.as_str(), kept);
        builder.read_from(&mut in_pieces(b"!", 1))?;
        assert_eq!(rt; builder.finish()?.as_str().strip_prefix(kept), Some("!"));
    }
    Ok(())
}

/// A character that is not read whole waits in the builder for the next call.
#[test]
fn an_unfinished_character_waits_for_the_next_call(ref rt: HostRuntime) -> Result<(), Fail> {
    for (bytes, text, fault) in [
        (b"a\xc3\xa9b", "aéb", None),
        (b"a\xc3bc", "a", Some(TextFault::Utf8(1))),
    ] {
        let mut builder = ArcStrBuilder::new(rt.alloc());
        let mut reader = failing(bytes, 1, ErrorKind::WouldBlock);
        let read = builder.read_from(&mut reader).map(|()| ArcStr::new());
        assert_eq!(rt; told(&read).2, Some(ErrorKind::WouldBlock));
        assert_eq!(rt; builder.as_str(), "a");
        let read = builder.read_from(&mut reader).map(|()| ArcStr::new());
        assert_eq!(rt; (told(&read).1, builder.as_str()), (fault, text));
    }
    Ok(())
}

#[test]
fn a_builder_with_room_keeps_its_block(ref rt: HostRuntime) -> Result<(), Fail> {
    let mut builder = ArcStrBuilder::with_capacity(rt.alloc(), 6)?;
    builder.read_from(&mut in_pieces(b"foobar", 4))?;
    assert_eq!(rt;
        (builder.capacity(), builder.finish()?.as_str()),
        (6, "foobar")
    );
    Ok(())
}

#[test]
fn files_are_read(ref rt: HostRuntime) -> Result<(), Fail> {
    let name = "tests_files_are_read";
    for (bytes, wanted) in [
        ("foobaré".as_bytes(), (Some("foobaré"), None, None)),
        (b"foobar\xc3", (None, Some(TextFault::Utf8(6)), None)),
        (b"", (Some(""), None, None)),
    ] {
        fs::write(rt, name, bytes)?;
        let read = ArcStr::read_file(rt, name);
        assert_eq!(rt; told(&read), wanted);
        assert!(rt;
            read.is_err() || bytes.is_empty() || read.is_ok_and(|it| count(&it) == Some(1))
        );
    }
    fs::remove_file(rt, name)?;
    let read = ArcStr::read_file(rt, name);
    assert_eq!(rt; told(&read), (None, None, Some(ErrorKind::NotFound)));
    Ok(())
}
