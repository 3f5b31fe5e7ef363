//! What the rounds share: random numbers and texts, the count of the answers, and of those that
//! differ.

use crate::memory::is_of_memory;
use anyhow::{Context, Error, Result};
use arcstr::{ArcStr, StaticStr, Substr};
use std::alloc::Global;
use std::fmt::Debug;
use std::ops::Range;
use std::rt::Files;
use std::sync::Wait;
use std::thread::Threads;

/// What a round needs: memory, threads with the permission to wait for them, files, and a place
/// where differences are printed.
pub(crate) trait Machine: AllocGlobal + Threads + Wait + Sync + Print + Files {}

impl<R: AllocGlobal + Threads + Wait + Sync + Print + Files> Machine for R {}

/// How many differences are shown.
const SHOWN: usize = 20;

/// Characters of one to four bytes: many that are split at, white space and what looks like it,
/// quotes, controls, a mark that combines, and the ends of the ranges of UTF-8.
const CHARACTERS: [char; 40] = [
    'a', 'a', 'a', 'b', 'b', ',', ',', ' ', ' ', ' ', '\n', '\n', '\r', '\t', 'é', '=', ';', '"',
    '\'', '\\', '\0', '\u{7f}', '\u{b}', '\u{85}', '\u{a0}', '\u{1680}', '\u{2003}', '\u{2028}',
    '\u{3000}', '\u{200b}', '\u{feff}', 'ß', '\u{301}', '\u{7ff}', '\u{800}', '中', '\u{ffff}',
    '\u{10000}', '😀', 'q',
];

/// Lengths at which a text is stored or compared in another way.
const EDGES: [usize; 12] = [7, 8, 15, 16, 31, 32, 63, 64, 127, 128, 255, 5_000];

/// A piece of a text, and the byte offset at which it begins.
pub(crate) type Piece<'a> = (usize, &'a str);

#[derive(Drop)]
pub(crate) struct Asked<'r, R> {
    pub(crate) rt: &'r R,
    pub(crate) alloc: Global,
    /// What the next random number comes from.
    pub(crate) state: u64,
    /// Whether a call that is out of memory is made again.
    pub(crate) is_retrying: bool,
    /// How many blocks a round marked static, which stay.
    pub(crate) kept: u64,
    answers: usize,
    differ: usize,
}

/// Compares what a library answers with what std answers. The kind of the answer is the call.
macro_rules! same {
    ($asked:expr; $here:expr, $wanted:expr $(,)?) => {
        match (&$here, &$wanted) {
            (here, wanted) => $asked.compare(stringify!($here), here, wanted)?,
        }
    };
}

pub(crate) use same;

impl<'r, R: Machine> Asked<'r, R> {
    pub(crate) fn new(rt: &'r R, seed: u64) -> Asked<'r, R> {
        Asked {
            rt,
            alloc: rt.alloc(),
            state: seed.wrapping_mul(0x9e37_79b9_7f4a_7c15) | 1,
            is_retrying: false,
            kept: 0,
            answers: 0,
            differ: 0,
        }
    }

    /// Marks a text static, and remembers that its block stays.
    pub(crate) fn leak(&mut self, text: &ArcStr) -> StaticStr {
        self.kept += u64::from(ArcStr::strong_count(text).is_some());
        text.leak()
    }

    /// Whether a call with this fault, which is that memory is out, is made again.
    pub(crate) fn retried(&mut self, fault: Error) -> Result<()> {
        if self.is_retrying && is_of_memory(self.alloc, &fault)? {
            self.is_retrying = false;
            return Ok(());
        }
        Err(fault)
    }

    /// Counts an answer, and shows it if it is one of the first that differ.
    pub(crate) fn compare<T: PartialEq + Debug>(
        &mut self,
        kind: &'static str,
        here: &T,
        wanted: &T,
    ) -> Result<()> {
        self.answers += 1;
        self.differ += usize::from(here != wanted);
        if here != wanted && self.differ <= SHOWN {
            let here = format!(in self.alloc; "{here:?}")?;
            let wanted = format!(in self.alloc; "{wanted:?}")?;
            println!(self.rt; "{kind}: {here:.300} and not {wanted:.300}")?;
        }
        Ok(())
    }

    /// Counts a round that an error ended as an answer that differs.
    pub(crate) fn ended(&mut self, kind: &'static str, round: Result<()>) -> Result<()> {
        let Err(error) = round else { return Ok(()) };
        let error = format!(in self.alloc; "{error}")?;
        self.compare(kind, &error.as_str(), &"an answer")
    }

    /// Prints the counts. Returns whether no answer differs.
    pub(crate) fn finish(&self) -> Result<bool> {
        println!(self.rt; "{} answers, {} differ", self.answers, self.differ)?;
        Ok(self.differ == 0)
    }

    /// Returns a number below `end`, and 0 if `end` is 0.
    pub(crate) fn below(&mut self, end: usize) -> usize {
        self.state ^= self.state << 13;
        self.state ^= self.state >> 7;
        self.state ^= self.state << 17;
        (self.state.wrapping_mul(0x2545_f491_4f6c_dd1d) >> 11) as usize % end.max(1)
    }

    pub(crate) fn one_in(&mut self, odds: usize) -> bool {
        self.below(odds) == 0
    }

    pub(crate) fn character(&mut self) -> char {
        CHARACTERS[self.below(CHARACTERS.len())]
    }

    /// Returns a text of few characters, or of about a length at an edge, and rarely a long one.
    pub(crate) fn text(&mut self) -> Result<String> {
        let (few, more, edge) = (self.below(9), self.below(40), self.below(EDGES.len()));
        let len = match self.below(1_000) {
            0 => 70_000,
            1..=99 => EDGES[edge] + few % 3 - 1,
            100..=299 => more,
            _ => few,
        };
        let is_plain = self.one_in(3);
        let mut text = String::new(self.alloc);
        while text.len() < len {
            let is_other = !is_plain || self.one_in(16);
            text.push(if is_other { self.character() } else { 'x' })?;
        }
        Ok(text)
    }

    /// Returns a text that begins as this one, ends as it, or is equal to it.
    pub(crate) fn text_like(&mut self, text: &str) -> Result<String> {
        let (place, other) = (self.boundary(text), self.character());
        let (before, after) = text.split_at_checked(place).context("no boundary")?;
        let rest = after.get(after.chars().next().map_or(0, char::len_utf8)..).unwrap_or("");
        let is_longer = self.one_in(2);
        Ok(match self.below(5) {
            0 => self.text()?,
            1 => String::from_str(self.alloc, before)?,
            2 if is_longer => format!(in self.alloc; "{text}{other}")?,
            2 => format!(in self.alloc; "{before}{other}{rest}")?,
            _ => String::from_str(self.alloc, text)?,
        })
    }

    /// Returns a character boundary of a text.
    pub(crate) fn boundary(&mut self, text: &str) -> usize {
        let mut place = self.below(text.len() + 1);
        while !text.is_char_boundary(place) {
            place -= 1;
        }
        place
    }

    /// Returns two character boundaries of a text in order. They are often its ends.
    pub(crate) fn part(&mut self, text: &str) -> Range<usize> {
        let (one, other) = (self.boundary(text), self.boundary(text));
        match self.below(4) {
            0 => 0..text.len(),
            1 => one..text.len(),
            _ => one.min(other)..one.max(other),
        }
    }

    /// Returns a character boundary of a text in most cases, and otherwise any byte offset.
    pub(crate) fn place(&mut self, text: &str) -> usize {
        match self.below(40) {
            0 => usize::MAX - self.below(2),
            1..=5 => self.below(text.len() + 4),
            _ => self.boundary(text),
        }
    }

    /// Returns a short part of the text in most cases, and otherwise some characters.
    pub(crate) fn needle(&mut self, text: &str) -> Result<String> {
        let (start, count) = (self.boundary(text), 1 + self.below(3));
        let mut needle = String::new(self.alloc);
        for character in text.get(start..).unwrap_or("").chars().take(count) {
            needle.push(character)?;
        }
        if self.one_in(6) {
            needle.push(self.character())?;
        }
        Ok(needle)
    }
}

/// A random text, a handle on it, a slice of it, and where the slice begins.
#[derive(Drop)]
pub(crate) struct Pair {
    pub(crate) text: String,
    pub(crate) whole: ArcStr,
    pub(crate) slice: Substr,
    pub(crate) start: usize,
}

impl Pair {
    pub(crate) fn random<R: Machine>(asked: &mut Asked<'_, R>) -> Result<Pair> {
        let text = asked.text()?;
        let whole = ArcStr::from_str(asked.alloc, text.as_str())?;
        let range = asked.part(text.as_str());
        let start = range.start;
        let slice = whole.substr(asked.rt, range)?;
        Ok(Pair { text, whole, slice, start })
    }

    /// The text that the slice has to have.
    pub(crate) fn own(&self) -> &str {
        self.text.as_str().get(self.slice.range()).unwrap_or("")
    }
}

/// Where a slice begins, and its text.
pub(crate) fn piece(slice: &Substr) -> Piece<'_> {
    (slice.range().start, slice.as_str())
}

pub(crate) fn one(slice: &Option<Substr>) -> Option<Piece<'_>> {
    slice.as_ref().map(piece)
}

pub(crate) fn pieces(alloc: Global, slices: &[Substr]) -> Result<Vec<Piece<'_>>> {
    Ok(slices.iter().map(piece).collect(alloc)?)
}
