//! Calls that make a text: of texts, bytes, lists, pieces, readers and files.

use crate::asked::{Asked, Machine, same};
use crate::memory::{again, block_of, takes};
use anyhow::{Context, Error, Result};
use arcstr::{ArcStr, ArcStrBuilder, ReadFault, Substr, TextFault, format_arcstr, literal};
use std::io::{ErrorKind, Read};
use std::{fs, io, str};

/// A text, its length, its count, and whether it is static.
type Said<'a> = (&'a str, usize, Option<usize>, bool);

/// A length that no text can have.
const TOO_LONG: usize = (1 << 63) - 25;

fn said(text: &ArcStr) -> Said<'_> {
    (text.as_str(), text.len(), ArcStr::strong_count(text), ArcStr::is_static(text))
}

/// What a text says that a call made: it has one handle, but an empty text is a literal.
fn first(text: &str) -> Said<'_> {
    let count = if text.is_empty() { None } else { Some(1) };
    (text, text.len(), count, text.is_empty())
}

/// What a call made, or its fault. Out of memory ends the round.
fn told(made: &Result<ArcStr, TextFault>) -> Result<Result<Said<'_>, TextFault>> {
    match made {
        Ok(text) => Ok(Ok(said(text))),
        Err(TextFault::Memory) => Err(TextFault::Memory.into()),
        Err(fault) => Ok(Err(*fault)),
    }
}

/// Random bytes, which are mostly a text.
fn bytes<R: Machine>(asked: &mut Asked<'_, R>) -> Result<Vec<u8>> {
    let mut bytes = asked.text()?.into_bytes();
    for _ in 0..asked.below(2) * asked.below(3) {
        let (at, byte) = (asked.below(bytes.len()), asked.below(6));
        if let Some(place) = bytes.get_mut(at) {
            *place = [0xff, 0x80, 0xc3, 0xe2, 0xf0, b'a'][byte];
        }
    }
    if asked.one_in(9) {
        bytes.pop();
    }
    Ok(bytes)
}

/// Copies of a text and of bytes, repetitions and formats.
pub(crate) fn copied<R: Machine>(asked: &mut Asked<'_, R>) -> Result<()> {
    let (alloc, text, bytes) = (asked.alloc, asked.text()?, bytes(asked)?);
    let (text, bytes, few) = (text.as_str(), bytes.as_slice(), asked.below(5));
    let (size, wanted) = (block_of(text.len()), Ok(first(text)));
    let block = takes!(asked; size, ArcStr::from_str(alloc, text))?;
    same!(asked; said(&block), first(text));
    same!(asked; told(&takes!(asked; size, ArcStr::try_alloc(alloc, text)))?, wanted);
    same!(asked; told(&ArcStr::try_from(String::from_str(alloc, text)?))?, wanted);
    same!(asked; said(&text.chars().collect::<ArcStr>(alloc)?), first(text));
    let slice = takes!(asked; size, Substr::from_str(alloc, text))?;
    same!(asked; said(slice.parent()), first(text));
    let printed = format!(in alloc; "{text}{few:>9}{text:?}")?;
    let wanted = Ok(first(printed.as_str()));
    same!(asked; told(&format_arcstr!(alloc; "{text}{few:>9}{text:?}"))?, wanted);
    let decoded = str::from_utf8(bytes).map(first);
    let wanted = decoded.map_err(|error| TextFault::Utf8(error.valid_up_to()));
    same!(asked; told(&ArcStr::from_utf8(alloc, bytes))?, wanted);
    let (size, mut is_run) = (block_of(bytes.len()), false);
    let fill = |it: &mut [u8]| {
        is_run = true;
        it.copy_from_slice(bytes);
    };
    let filled = takes!(asked; size, ArcStr::init_with(alloc, bytes.len(), fill));
    same!(asked; is_run, !matches!(filled, Err(TextFault::Memory)));
    same!(asked; told(&filled)?, wanted);
    same!(asked; told(&ArcStr::try_from(bytes.to_vec(alloc)?))?, wanted);
    if text.len() < 6_000 {
        let repeated = text.repeat(alloc, few)?;
        let (size, wanted) = (block_of(repeated.len()), Ok(first(repeated.as_str())));
        same!(asked; told(&takes!(asked; size, ArcStr::repeat(alloc, text, few)))?, wanted);
        let wanted = if text.is_empty() { Ok(first("")) } else { Err(TextFault::Length) };
        same!(asked; told(&ArcStr::try_repeat(alloc, text, usize::MAX - few))?, wanted);
    }
    same!(asked; said(&takes!(asked; (0, 0), literal!("aé"))), ("aé", 3, None, true));
    same!(asked; said(&ArcStr::from_static("")), said(&ArcStr::new()));
    Ok(())
}

/// Lists of texts, slices and strings, joined and collected.
pub(crate) fn joined<R: Machine>(asked: &mut Asked<'_, R>) -> Result<()> {
    let (rt, alloc, between) = (asked.rt, asked.alloc, asked.character());
    let between = format!(in alloc; "{between}")?;
    let (mut whole, mut all) = (String::new(alloc), String::new(alloc));
    let mut rests = String::new(alloc);
    let (mut texts, mut slices, mut strings) = (Vec::new(alloc), Vec::new(alloc), Vec::new(alloc));
    for number in 0..asked.below(7) {
        let text = asked.text()?;
        let start = asked.boundary(text.as_str());
        whole.push_str(if number == 0 { "" } else { between.as_str() })?;
        whole.push_str(text.as_str())?;
        all.push_str(text.as_str())?;
        rests.push_str(text.as_str().get(start..).unwrap_or(""))?;
        let block = ArcStr::from_str(alloc, text.as_str())?;
        slices.push(ArcStr::from_str(alloc, text.as_str())?.substr(rt, start..)?)?;
        texts.push(block)?;
        strings.push(text)?;
    }
    let (wanted, between) = (Ok(first(whole.as_str())), between.as_str());
    let made = takes!(asked; block_of(whole.len()), ArcStr::join(alloc, texts.as_slice(), between));
    same!(asked; told(&made)?, wanted);
    same!(asked; told(&ArcStr::join(alloc, strings.as_slice(), between))?, wanted);
    let wanted = Ok(first(rests.as_str()));
    same!(asked; told(&ArcStr::join(alloc, slices.as_slice(), ""))?, wanted);
    same!(asked; said(&strings.into_iter().collect::<ArcStr>(alloc)?), first(all.as_str()));
    let mut collected: String = slices.into_iter().collect(alloc)?;
    same!(asked; collected, rests);
    collected.extend(texts)?;
    rests.push_str(all.as_str())?;
    same!(asked; collected, rests);
    Ok(())
}

/// Appends to a builder and to a `String`.
pub(crate) fn built<R: Machine>(asked: &mut Asked<'_, R>) -> Result<()> {
    let (alloc, capacity) = (asked.alloc, asked.below(2) * asked.below(40));
    let (mut here, mut there) = (ArcStrBuilder::new(alloc), String::new(alloc));
    if capacity > 0 {
        here = ArcStrBuilder::with_capacity(alloc, capacity)?;
    }
    same!(asked; (here.capacity(), here.is_empty()), (capacity, true));
    for _ in 0..asked.below(9) {
        let (text, c) = (asked.text()?, asked.character());
        let (text, more, old) = (text.as_str(), asked.below(500), here.capacity());
        let call = asked.below(7);
        let written = match call {
            0 => here.read_from(&mut text.as_bytes()).map_err(Error::from),
            1 => write!(here, "{text:>5}{c}").map_err(Error::from),
            2 => writeln!(here, "{c}{text:?}").map_err(Error::from),
            _ => Ok(()),
        };
        if let Err(fault) = written {
            // A part of it may be there.
            same!(asked; here.as_str().starts_with(there.as_str()), true);
            return Err(fault);
        }
        again!(asked; (here.len(), here.capacity()), match call {
            3 => here.push(c),
            4 => here.write_fmt(text),
            5 => here.push_str(text),
            6 => here.reserve(more),
            _ => Ok(()),
        });
        match call {
            1 => write!(there, "{text:>5}{c}")?,
            2 => writeln!(there, "{c}{text:?}")?,
            3 => there.push(c)?,
            0 | 4 | 5 => there.push_str(text)?,
            _ => {}
        }
        same!(asked; (here.as_str(), here.len()), (there.as_str(), there.len()));
        same!(asked; here.is_empty(), there.is_empty());
        let is_doubled = here.capacity() == old || here.capacity() >= 2 * old;
        same!(asked; (here.capacity() >= here.len(), is_doubled), (true, true));
    }
    same!(asked; here.reserve(usize::MAX - here.len()).err(), Some(TextFault::Length));
    let fault = ArcStrBuilder::with_capacity(alloc, TOO_LONG).err();
    same!(asked; fault, Some(TextFault::Length));
    let text = there.as_str();
    let (before, rest) = text.split_at_checked(asked.boundary(text)).unwrap_or((text, ""));
    let size = block_of(text.len());
    let mut full = takes!(asked; size, ArcStrBuilder::with_capacity(alloc, text.len()))?;
    takes!(asked; (0, 0), full.push_str(before))?;
    same!(asked; said(&takes!(asked; (0, 0), full.fill(rest))), first(text));
    let size = if here.capacity() == text.len() { (0, 0) } else { size };
    same!(asked; told(&takes!(asked; size, here.finish()))?, Ok(first(text)));
    Ok(())
}

const MESSAGE: &str = "no more";

/// Gives at most `most` bytes at a time. One of `often` reads is interrupted. Of the others, the
/// one of the number `fails_at` fails, and none after it.
#[derive(Drop)]
pub(crate) struct Pieces<'a> {
    pub(crate) rest: &'a [u8],
    pub(crate) most: usize,
    pub(crate) reads: usize,
    pub(crate) often: usize,
    pub(crate) fails_at: usize,
    pub(crate) kind: ErrorKind,
}

impl Read for Pieces<'_> {
    fn read(&mut self, buf: &mut [u8]) -> io::Result<usize> {
        self.reads += 1;
        if self.reads % self.often == 1 {
            return Err(io::Error::from(ErrorKind::Interrupted));
        }
        if self.fails_at == 0 {
            self.fails_at = usize::MAX;
            return Err(io::Error::new(self.kind, MESSAGE));
        }
        self.fails_at -= 1;
        let count = self.rest.len().min(buf.len()).min(self.most);
        buf[..count].copy_from_slice(&self.rest[..count]);
        self.rest = &self.rest[count..];
        Ok(count)
    }
}

type Reading<'a> = (Option<&'a str>, Option<TextFault>, Option<ErrorKind>);

/// What a call read: a text, or why there is none. Out of memory ends the round.
fn read(made: &Result<ArcStr, ReadFault>) -> Result<Reading<'_>> {
    match made {
        Ok(text) => Ok((Some(text.as_str()), None, None)),
        Err(ReadFault::Text(TextFault::Memory)) => Err(TextFault::Memory.into()),
        Err(ReadFault::Text(fault)) => Ok((None, Some(*fault), None)),
        Err(ReadFault::Io(error)) => Ok((None, None, Some(error.kind()))),
    }
}

/// Readers that give a text in pieces, and files.
pub(crate) fn read_whole<R: Machine>(asked: &mut Asked<'_, R>) -> Result<()> {
    let (alloc, bytes) = (asked.alloc, bytes(asked)?);
    let rest = bytes.as_slice();
    let most = [1, 2, 3, 5, 4_000, 20_000][asked.below(6)] + rest.len() / 500;
    let (often, kind) = (2 + asked.below(5), match asked.below(4) {
        0 => ErrorKind::WouldBlock,
        1 => ErrorKind::TimedOut,
        2 => ErrorKind::UnexpectedEof,
        _ => ErrorKind::Other,
    });
    let reader = |fails_at| Pieces { rest, most, reads: 0, often, fails_at, kind };
    let wanted = match str::from_utf8(rest) {
        Ok(text) => (Some(text), None, None),
        Err(error) => (None, Some(TextFault::Utf8(error.valid_up_to())), None),
    };
    same!(asked; read(&ArcStr::read_from(alloc, reader(usize::MAX)))?, wanted);
    if asked.one_in(9) {
        fs::write(asked.rt, "asked", rest)?;
        let made = takes!(asked; block_of(rest.len()), ArcStr::read_file(asked.rt, "asked"));
        same!(asked; read(&made)?, wanted);
        let missing = (None, None, Some(ErrorKind::NotFound));
        same!(asked; read(&ArcStr::read_file(asked.rt, "no such file"))?, missing);
        // Its length is not known before it is read.
        same!(asked; ArcStr::read_file(asked.rt, "/proc/sys/kernel/ostype")?.as_str(), "Linux\n");
    }
    // The last read gives nothing, and each before it at most 16,000 bytes.
    let fails_at = asked.below(rest.len() / most.min(16_000) + 1);
    let wanted = (None, None, Some(kind));
    if let Ok(text) = str::from_utf8(rest) {
        let made = ArcStr::read_from(alloc, reader(fails_at));
        same!(asked; read(&made)?, wanted);
        let message = format!(in alloc; "{}", made.err().context("no fault")?)?;
        same!(asked; message.as_str(), MESSAGE);
        let mut builder = ArcStrBuilder::new(alloc);
        builder.push_str("aé")?;
        let failed = builder.read_from(&mut reader(fails_at)).map(|()| ArcStr::new());
        same!(asked; read(&failed)?, wanted);
        let kept = builder.as_str().strip_prefix("aé").unwrap_or("no text");
        same!(asked; text.starts_with(kept), true);
    }
    Ok(())
}
