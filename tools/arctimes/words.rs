//! The words of the texts on standard input, with a byte 1 between two texts.
//!
//! std counts them, a loop finds their ranges, and `tokens` and `token_list` make lists of them.
//! Thread `i % THREADS` finds those of text `i`. N is not used, and SUM is the number of words.

use crate::requests::{Machine, Request, sum_of};
use anyhow::Result;
use arcstr::ArcStr;
use arctokens::{token_list, tokens};
use std::alloc::{AllocError, Global};
use std::sync::Wait;
use std::{io, thread};

/// The texts for the table, which does not read standard input.
const FEW_WORDS: &str =
    "the words of a text, \u{e4}\u{df}\u{4e2d} and\u{a0}spaces \u{1} of  two\ttexts\n";

/// Times how long the threads of the request take to find the words of all texts.
pub(crate) fn run<M: Machine>(rt: &M, request: &Request) -> Result<()> {
    let (alloc, figure, threads) = (rt.alloc(), request.figure, request.threads);
    let input = input(rt, request)?;
    let mut texts = Vec::new(alloc);
    for text in input.as_str().split('\u{1}') {
        texts.push(ArcStr::from_str(alloc, text)?)?;
    }
    let work = |worker: usize| words_of_share(rt, alloc, &texts, figure, worker, threads);
    request.time(
        rt,
        || Ok(sum_of(thread::map_indices(rt, alloc, threads, &work)?)?),
    )
}

/// Returns the number of words of one worker's texts, found as the figure says. The words of each
/// text are dropped before the next text.
fn words_of_share<R: Wait>(
    rt: &R,
    alloc: Global,
    texts: &[ArcStr],
    figure: &str,
    worker: usize,
    workers: usize,
) -> Result<usize, AllocError> {
    let mut sum = 0usize;
    for text in texts.iter().skip(worker).step_by(workers.max(1)) {
        let count = match figure {
            "count_words_only" => text.as_str().split_whitespace().count(),
            "word_ranges_only" => places(alloc, text.as_str())?.len(),
            "words" => tokens(rt, alloc, text)?.len(),
            _ => token_list(rt, alloc, text)?.len(),
        };
        sum = sum.wrapping_add(count);
    }
    Ok(sum)
}

/// Returns the texts that the request reads, with a byte 1 between two.
pub(crate) fn input<M: Machine>(rt: &M, request: &Request) -> Result<String> {
    if request.is_short {
        return Ok(String::from_str(rt.alloc(), FEW_WORDS)?);
    }
    Ok(io::read_to_string(rt.alloc(), rt.reader())?)
}

/// Returns the byte ranges of the words, found by the characters of the text.
fn places(alloc: Global, text: &str) -> Result<Vec<(usize, usize)>, AllocError> {
    let mut words = Vec::new(alloc);
    let mut start = None;
    for (place, character) in text.char_indices() {
        if !character.is_whitespace() {
            start = Some(start.unwrap_or(place));
        } else if let Some(first) = start.take() {
            words.push((first, place))?;
        }
    }
    if let Some(first) = start {
        words.push((first, text.len()))?;
    }
    Ok(words)
}
