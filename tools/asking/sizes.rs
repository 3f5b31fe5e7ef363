//! Texts and lists that are larger than those of the rounds, so that no call gives up in secret.

use crate::asked::{Asked, Machine, piece, same};
use crate::making::Pieces;
use crate::memory::takes;
use anyhow::{Context, Result};
use arcintern::{Interner, SharedInterner, SymbolMap, WordList};
use arcstr::{ArcStr, ArcStrBuilder};
use arctokens::{token_list, tokens};
use std::collections::BTreeMap;
use std::io::ErrorKind;
use std::{fs, str};

/// The bytes of a long text, the words of another and of a word list, the words of other interners,
/// those of one shard, of JSON and of lists of slices, which are also bytes that are read one by
/// one, and how often a file is read.
const BYTES: usize = 17 << 20;
const WORDS: usize = 1_100_000;
const MANY: usize = 300_000;
const SOME: usize = 70_000;
const FILES: usize = 2_000;

pub(crate) fn ask<R: Machine>(asked: &mut Asked<'_, R>) -> Result<()> {
    let mut words = String::new(asked.alloc);
    for number in 0..WORDS {
        writeln!(words, "{number}")?;
    }
    let words = words.as_str();
    let (many, _) = words.split_once("300000\n").context("no part")?;
    let (some, _) = words.split_once("70000\n").context("no part")?;
    for number in 0..7 {
        let (kind, ended) = match number {
            0 => ("a long text", long(asked)),
            1 => ("many reads", reads(asked)),
            2 => ("many files", files(asked)),
            3 => ("many parts", parts(asked, words, some)),
            4 => ("many words", interners(asked, words, many, some)),
            5 => ("many shared words", shared(asked, many, some)),
            _ => ("words of shards", shards(asked)),
        };
        asked.ended(kind, ended)?;
    }
    Ok(())
}

/// A text that is read, built, copied and written.
fn long<R: Machine>(asked: &mut Asked<'_, R>) -> Result<()> {
    let (rt, alloc) = (asked.rt, asked.alloc);
    let bytes = vec![in alloc; b'x'; BYTES]?;
    let text = str::from_utf8(bytes.as_slice())?;
    let (part, rest) = text.split_at_checked(BYTES / 17).context("no part")?;
    let all = bytes.as_slice();
    same!(asked; ArcStr::read_from(alloc, all).is_ok_and(|it| it.eq_str(text)), true);
    fs::write(rt, "long", all)?;
    same!(asked; ArcStr::read_file(rt, "long").is_ok_and(|it| it.eq_str(text)), true);
    same!(asked; ArcStr::from_utf8(alloc, all).is_ok_and(|it| it.eq_str(text)), true);
    same!(asked; ArcStr::join(alloc, &[part, rest], "").is_ok_and(|it| it.eq_str(text)), true);
    same!(asked; ArcStr::repeat(alloc, part, 17).is_ok_and(|it| it.eq_str(text)), true);
    let whole = ArcStr::from_str(alloc, text)?;
    same!(asked; whole.substr(rt, BYTES - 1..)?.as_str(), "x");
    let mut builder = ArcStrBuilder::new(alloc);
    for number in 0..17 {
        same!(asked; (number, builder.push_str(part)), (number, Ok(())));
    }
    same!(asked; builder.finish().is_ok_and(|it| it.eq_str(text)), true);
    let json = serde_json::to_string(alloc, &part)?;
    let written: ArcStr = serde_json::from_str(alloc, json.as_str())?;
    same!(asked; written.eq_str(part), true);
    let settings = format!(in alloc; "text = \"{part}\"")?;
    let settings: BTreeMap<String, ArcStr> = toml::from_str(alloc, settings.as_str())?;
    same!(asked; settings.get("text").is_some_and(|it| it.eq_str(part)), true);
    Ok(())
}

fn reads<R: Machine>(asked: &mut Asked<'_, R>) -> Result<()> {
    let bytes = vec![in asked.alloc; b'x'; SOME]?;
    let (rest, kind) = (bytes.as_slice(), ErrorKind::Other);
    let (often, fails_at) = (usize::MAX, usize::MAX);
    let reader = Pieces { rest, most: 1, reads: 0, often, fails_at, kind };
    same!(asked; ArcStr::read_from(asked.alloc, reader)?.as_bytes() == rest, true);
    Ok(())
}

/// `tools/ask` lets the program have fewer files open.
fn files<R: Machine>(asked: &mut Asked<'_, R>) -> Result<()> {
    fs::write(asked.rt, "few", "foo bar")?;
    for _ in 0..FILES {
        same!(asked; ArcStr::read_file(asked.rt, "few")?.as_str(), "foo bar");
    }
    Ok(())
}

fn parts<R: Machine>(asked: &mut Asked<'_, R>, words: &str, some: &str) -> Result<()> {
    let (rt, alloc, text) = (asked.rt, asked.alloc, ArcStr::from_str(asked.alloc, words)?);
    let list = token_list(rt, alloc, &text)?;
    same!(asked; (list.len(), list.as_str(WORDS - 1)), (WORDS, Some("1099999")));
    let text = ArcStr::from_str(alloc, some)?;
    for slices in [
        tokens(rt, alloc, &text)?,
        text.substr_lines(rt, alloc)?,
        text.substr_split_whitespace(rt, alloc)?,
        text.substr_trim_end(rt).substr_split(rt, alloc, '\n')?,
    ] {
        same!(asked; (slices.len(), slices.last().map(piece)), (SOME, Some((408_884, "69999"))));
    }
    Ok(())
}

/// How many words a call gives another number than the one that each has, or none.
fn wrong<F: FnMut(&str) -> Option<usize>>(words: &str, mut number_of: F) -> usize {
    let mut wrong = 0;
    for (number, word) in words.lines().enumerate() {
        wrong += usize::from(number_of(word) != Some(number));
    }
    wrong
}

/// Numbers the words, finds many, and writes and reads some.
macro_rules! numbered {
    ($asked:expr, $words:expr, $many:expr, $some:expr, $type:ty) => {{
        let (alloc, mut here) = ($asked.alloc, <$type>::new($asked.alloc));
        let added = wrong($words, |word| here.intern(word).ok().map(|it| it.index()));
        let found = wrong($many, |word| here.get(word).map(|it| it.index()));
        same!($asked; (added, found, here.len()), (0, 0, $words.lines().count()));
        let some: Vec<&str> = $some.lines().collect(alloc)?;
        let json = serde_json::to_string(alloc, &some)?;
        let read = serde_json::from_str::<$type>(alloc, json.as_str()).ok();
        let written = read.and_then(|it| serde_json::to_string(alloc, &it).ok());
        same!($asked; written.is_some_and(|it| it == json), true);
        here
    }};
}

fn interners<R: Machine>(
    asked: &mut Asked<'_, R>,
    words: &str,
    many: &str,
    some: &str,
) -> Result<()> {
    drop(numbered!(asked, many, many, some, Interner));
    let list = numbered!(asked, words, many, some, WordList);
    let mut values: SymbolMap<usize> = SymbolMap::new(asked.alloc);
    for (number, (symbol, _)) in list.pairs().enumerate() {
        values.insert(symbol, number)?;
    }
    let sum: usize = values.iter().map(|it| *it.1).sum();
    same!(asked; sum, WORDS * (WORDS - 1) / 2);
    Ok(())
}

/// Words of 64 shards, and of one. The symbol of each is known once it is there.
fn shared<R: Machine>(asked: &mut Asked<'_, R>, words: &str, some: &str) -> Result<()> {
    let rt = asked.rt;
    for (shards, words) in [(64, words), (1, some)] {
        let shared = SharedInterner::new(asked.alloc, shards)?;
        let added = wrong(words, |word| {
            let number = shared.intern(rt, word).ok()?.number();
            shared.symbol_at(number).map(|it| it.number().index())
        });
        let found = wrong(words, |word| shared.get(word).map(|it| it.number().index()));
        same!(asked; (added, found, shared.len()), (0, 0, words.lines().count()));
    }
    Ok(())
}

/// Shards have room for twice their part of the words, and so for the words if these are spread.
fn shards<R: Machine>(asked: &mut Asked<'_, R>) -> Result<()> {
    let (rt, alloc, mut texts) = (asked.rt, asked.alloc, Vec::new(asked.alloc));
    for number in 0..4_000 {
        texts.push(ArcStr::try_from(format!(in alloc; "{number}")?)?)?;
    }
    let shared = SharedInterner::with_capacity(alloc, 8, 8_000)?;
    takes!(asked; (0, 0), for text in texts.iter() {
        shared.intern_arc(rt, text)?;
    });
    Ok(())
}
