//! The symbol of each word on standard input, whose number is taken as N.
//!
//! `intern` makes them in a fresh interner, whose drop is not timed, and `intern_get` finds them in
//! one that has all words. `intern_list` and `list_get` do so by a `WordList`. `intern_shared`
//! reads the length of each word's text, in a `SharedInterner` that has the words, and each of
//! THREADS threads takes a share of them. `intern_shared_new` does so in a fresh one.

use crate::requests::{Machine, Request, sum_of};
use crate::{no_figure, words};
use anyhow::Result;
use arcintern::{InternFault, Interner, SharedInterner, Symbol, WordList};
use std::alloc::{AllocError, Global};
use std::ops::Range;
use std::sync::Wait;
use std::thread;
use std::time::Instant;

/// The number of shards of the interner that threads share.
const SHARDS: usize = 64;

/// N is the number of words.
pub(crate) fn run<M: Machine>(rt: &M, request: &Request) -> Result<()> {
    let alloc = rt.alloc();
    let input = words::input(rt, request)?;
    let words = split(alloc, &input)?;
    let operations = words.len();
    let request = Request {
        operations,
        ..*request
    };
    match request.figure {
        "intern" => {
            let fill = |interner: &mut Interner| intern_all(interner, &words);
            time_new(rt, &request, || Ok(Interner::new(alloc)), fill)
        }
        "intern_list" => {
            let fill = |list: &mut WordList| list_all(list, &words);
            time_new(rt, &request, || Ok(WordList::new(alloc)), fill)
        }
        "intern_get" => {
            let mut interner = Interner::new(alloc);
            intern_all(&mut interner, &words)?;
            request.time_each(rt, &words, words.len(), |word| index(interner.get(word)))
        }
        "list_get" => {
            let mut list = WordList::new(alloc);
            list_all(&mut list, &words)?;
            request.time_each(rt, &words, words.len(), |word| index(list.get(word)))
        }
        "intern_shared" => {
            let interner = SharedInterner::new(alloc, SHARDS)?;
            intern_share(rt, &interner, &words, 0, 1)?;
            request.time(rt, || intern_in_threads(rt, &request, &interner, &words))
        }
        "intern_shared_new" => {
            let fill = |interner: &mut SharedInterner| {
                intern_in_threads(rt, &request, interner, &words)
            };
            time_new(
                rt,
                &request,
                || Ok(SharedInterner::new(alloc, SHARDS)?),
                fill,
            )
        }
        _ => no_figure(),
    }
}

/// Returns the index of a word's symbol, or 0 if there is none.
fn index(found: Option<Symbol>) -> usize {
    found.map_or(0, |symbol| symbol.index())
}

/// Times rounds that each fill a new interner or list, whose drop is not timed.
fn time_new<M: Machine, T: Drop, F: Fn() -> Result<T>, G: Fn(&mut T) -> Result<usize>>(
    rt: &M,
    request: &Request,
    make: F,
    fill: G,
) -> Result<()>
    requires makes { F.IsAlwaysCallable make }
    requires fills { G.IsAlwaysCallable fill }
{
    for _ in 0..request.rounds {
        let mut new = make()?;
        let start = Instant::now(rt)?;
        let sum = fill(&mut new)?;
        request.finish(rt, start, sum)?;
    }
    Ok(())
}

/// Returns the sum of the words' symbols.
fn intern_all(interner: &mut Interner, words: &[&str]) -> Result<usize> {
    let mut sum = 0usize;
    for word in words {
        sum = sum.wrapping_add(interner.intern(word)?.index());
    }
    Ok(sum)
}

/// As `intern_all`, by a `WordList`.
fn list_all(list: &mut WordList, words: &[&str]) -> Result<usize> {
    let mut sum = 0usize;
    for word in words {
        sum = sum.wrapping_add(list.intern(word)?.index());
    }
    Ok(sum)
}

/// Interns the words, a share in each thread of the request.
fn intern_in_threads<M: Machine>(
    rt: &M,
    request: &Request,
    interner: &SharedInterner,
    words: &[&str],
) -> Result<usize> {
    let work = |worker: usize| intern_share(rt, interner, words, worker, request.threads);
    Ok(sum_of(thread::map_indices(rt, rt.alloc(), request.threads, &work)?)?)
}

/// Interns one worker's share of the words, and returns the sum of the lengths of their texts.
fn intern_share<R: Wait>(
    rt: &R,
    interner: &SharedInterner,
    words: &[&str],
    worker: usize,
    workers: usize,
) -> Result<usize, InternFault> {
    let mut sum = 0usize;
    for word in words
        .get(share_of(words.len(), worker, workers))
        .unwrap_or(&[])
    {
        let symbol = interner.intern(rt, word)?;
        sum = sum.wrapping_add(interner.text(&symbol).len());
    }
    Ok(sum)
}

/// Returns the range of one worker's share of this many words.
fn share_of(words: usize, worker: usize, workers: usize) -> Range<usize> {
    let len = (words / workers.max(1)).saturating_add(1);
    let start = worker.saturating_mul(len).min(words);
    start..start.saturating_add(len).min(words)
}

/// Returns the words of all texts.
fn split<'a>(alloc: Global, input: &'a str) -> Result<Vec<&'a str>, AllocError> {
    let mut words = Vec::new(alloc);
    for text in input.split('\u{1}') {
        for word in text.split_whitespace() {
            words.push(word)?;
        }
    }
    Ok(words)
}
