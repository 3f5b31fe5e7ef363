//! A request to the program: a figure, and how much of it. Its rounds read the clock and print the
//! results. The texts that figures use.

use anyhow::Result;
use arcstr::ArcStr;
use std::alloc::{AllocError, Global};
use std::rt::{Clock, Env};
use std::sync::Wait;
use std::thread::Threads;
use std::time::Instant;

/// A clock, memory, standard streams, threads, and the permission to wait for them.
pub(crate) trait Machine: Clock
    + Env
    + AllocGlobal
    + Input
    + Print
    + Eprint
    + Threads
    + Wait
    + Sync {}

impl<R: Clock + Env + AllocGlobal + Input + Print + Eprint + Threads + Wait + Sync> Machine for R {}

/// A figure by its name, and how much of it to do.
#[derive(Clone, Copy)]
pub(crate) struct Request<'a> {
    pub(crate) figure: &'a str,
    /// The number of operations in a round (N).
    pub(crate) operations: usize,
    pub(crate) rounds: usize,
    pub(crate) threads: usize,
    /// The length of a text, in bytes.
    pub(crate) size: usize,
    /// The byte offset at which two texts differ (AT). If it equals the size, the texts are equal.
    pub(crate) place: usize,
    /// The number of texts, for figures of reads.
    pub(crate) count: usize,
    /// Whether a round prints its sum, and its time on standard error, in place of all numbers.
    pub(crate) is_short: bool,
}

impl<'a> Request<'a> {
    /// Parses a request from the arguments, in the order FIGURE N ROUNDS THREADS SIZE AT COUNT. If
    /// there are none, it is for a short round.
    pub(crate) fn new(figure: &'a str, arguments: &[String]) -> Result<Request<'a>> {
        let (threads, size, count) = match figure {
            "clone_drop_contended" | "clone_drop_contended_bare" => (2, 64, 1),
            "substr" | "substr_of_substr" => (1, 4096, 1),
            "read_len" | "read_byte" | "read_slice" | "look_up" => (1, 64, 1000),
            _ => (1, 64, 1),
        };
        let size = number(arguments, 4, size)?;
        Ok(Request {
            figure,
            operations: number(arguments, 1, 8000)?,
            rounds: number(arguments, 2, 1)?,
            threads: number(arguments, 3, threads)?.max(1),
            size,
            place: number(arguments, 5, size)?,
            count: number(arguments, 6, count)?.max(1),
            is_short: arguments.is_empty(),
        })
    }

    /// Times rounds in each of which `of` returns a number for each operation.
    pub(crate) fn time_operations<M: Machine, F: Fn() -> usize>(&self, rt: &M, of: F) -> Result<()>
        requires { F.IsAlwaysCallable of }
    {
        for _ in 0..self.rounds {
            let start = Instant::now(rt)?;
            let sum = add_times(self.operations, &of);
            self.finish(rt, start, sum)?;
        }
        Ok(())
    }

    /// Times rounds in each of which `of` returns a number for each of these items, once for each
    /// `part` operations.
    pub(crate) fn time_each<M: Machine, T, F: Fn(&T) -> usize>(
        &self,
        rt: &M,
        all: &[T],
        part: usize,
        of: F,
    ) -> Result<()>
        requires { F.IsAlwaysCallable of }
    {
        let times = self.operations / part.max(1);
        for _ in 0..self.rounds {
            let start = Instant::now(rt)?;
            let sum = add_each(all, times, &of);
            self.finish(rt, start, sum)?;
        }
        Ok(())
    }

    /// Times each round, and prints it. A round returns the sum of what its operations returned.
    pub(crate) fn time<M: Machine, F: Fn() -> Result<usize>>(&self, rt: &M, round: F) -> Result<()>
        requires { F.IsAlwaysCallable round }
    {
        for _ in 0..self.rounds {
            let start = Instant::now(rt)?;
            let sum = round()?;
            self.finish(rt, start, sum)?;
        }
        Ok(())
    }

    /// Reads the clock at the end of a round, and prints the round.
    pub(crate) fn finish<M: Machine>(&self, rt: &M, start: Instant, sum: usize) -> Result<()> {
        let nanoseconds = start.elapsed(rt)?.as_nanos();
        let (figure, threads, size) = (self.figure, self.threads, self.size);
        let operations = self.operations;
        if self.is_short {
            println!(rt; "{figure} {sum}")?;
            let tenths = nanoseconds.saturating_mul(10) / self.units(sum).max(1) as u128;
            let (whole, tenth) = (tenths / 10, tenths % 10);
            eprintln!(rt; "{figure:<28} {whole:>8}.{tenth} ns")?;
        } else {
            println!(rt; "{figure} {threads} {size} {nanoseconds} {operations} {sum}")?;
        }
        Ok(())
    }

    /// How many units a round's time is divided by in the table: texts that were read (N / 1000
    /// rounds over COUNT texts), words, whole readings or operations.
    fn units(&self, sum: usize) -> usize {
        match self.figure {
            "read_len" | "read_byte" | "read_slice" => {
                (self.operations / 1000).saturating_mul(self.count)
            }
            "read_from" => 1,
            "count_words_only" | "word_ranges_only" | "words" | "token_list" => sum,
            _ => self.operations,
        }
    }

    /// Returns a text of the request's size, all letters `x`.
    pub(crate) fn text(&self, alloc: Global) -> Result<ArcStr> {
        Ok(ArcStr::from_str(alloc, letters(alloc, self.size, self.size)?.as_str())?)
    }

    /// Returns eight texts of the request's size, each in its own block, with a `y` at AT.
    pub(crate) fn eight(&self, alloc: Global) -> Result<Vec<ArcStr>> {
        many(alloc, letters(alloc, self.size, self.place)?.as_str(), 8)
    }
}

/// Returns the number at this position of the arguments, or the default if none stands there.
fn number(arguments: &[String], index: usize, usual: usize) -> Result<usize> {
    match arguments.get(index) {
        None => Ok(usual),
        Some(argument) => Ok(argument.parse()?),
    }
}

/// Returns the sum of what `of` returns, this many times.
pub(crate) fn add_times<F: Fn() -> usize>(times: usize, of: F) -> usize
    requires { F.IsAlwaysCallable of }
{
    let mut sum = 0usize;
    for _ in 0..times {
        sum = sum.wrapping_add(of());
    }
    sum
}

/// Returns the sum of what `of` returns for each item, this many times.
pub(crate) fn add_each<T, F: Fn(&T) -> usize>(all: &[T], times: usize, of: F) -> usize
    requires { F.IsAlwaysCallable of }
{
    let mut sum = 0usize;
    for _ in 0..times {
        for item in all {
            sum = sum.wrapping_add(of(item));
        }
    }
    sum
}

/// Returns the sum of what threads returned.
pub(crate) fn sum_of<E: Drop>(shares: Vec<Result<usize, E>>) -> Result<usize, E> {
    let mut sum = 0usize;
    for share in shares {
        sum = sum.wrapping_add(share?);
    }
    Ok(sum)
}

/// Returns this many letters `x`, with a `y` at `place` if that is in the text.
pub(crate) fn letters(alloc: Global, size: usize, place: usize) -> Result<String, AllocError> {
    let mut text = String::with_capacity(alloc, size)?;
    for at in 0..size {
        text.push(if at == place { 'y' } else { 'x' })?;
    }
    Ok(text)
}

/// Returns this many equal texts, each in its own block.
pub(crate) fn many(alloc: Global, text: &str, count: usize) -> Result<Vec<ArcStr>> {
    let mut texts = Vec::new(alloc);
    for _ in 0..count {
        texts.push(ArcStr::from_str(alloc, text)?)?;
    }
    Ok(texts)
}
