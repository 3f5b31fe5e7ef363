//! What memory.c counts, and refuses in turn.

use crate::asked::{Asked, Machine};
use crate::round;
use anyhow::{Error, Result};
use std::alloc::Global;

unsafe extern "C" {
    safe fn asking_count(which: u64) -> u64;

    safe fn asking_refuse(which: u64, after: u64, many: u64);
}

const REQUESTS: u64 = 0;
const STARTS: u64 = 1;
const BYTES: u64 = 2;
const LIVE: u64 = 3;

/// At most about so many calls of a round are refused in turn.
const MOST: u64 = 60;

/// How many pieces of memory were requested, and how many bytes.
pub(crate) fn taken() -> (u64, u64) {
    (asking_count(REQUESTS), asking_count(BYTES))
}

/// What a text of this length takes: no memory, or its bytes, a length and a count word.
pub(crate) fn block_of(len: usize) -> (u64, u64) {
    if len == 0 { (0, 0) } else { (1, (16 + len as u64).next_multiple_of(8)) }
}

/// Makes a call that requests so many pieces of memory with so many bytes.
macro_rules! takes {
    ($asked:expr; $wanted:expr, $call:expr) => {{
        let before = $crate::memory::taken();
        let made = $call;
        let after = $crate::memory::taken();
        let taken = (after.0 - before.0, after.1 - before.1);
        $asked.compare(concat!("memory of ", stringify!($call)), &taken, &$wanted)?;
        made
    }};
}

/// Makes a call. If it is out of memory because of one refusal, what is to be kept has to be as
/// before, and it is made again.
macro_rules! again {
    ($asked:expr; $kept:expr, $call:expr) => {{
        let before = $kept;
        match $call {
            Ok(made) => made,
            Err(fault) => {
                $crate::asked::same!($asked; $kept, before);
                $asked.retried(fault.into())?;
                $call?
            }
        }
    }};
}

pub(crate) use {again, takes};

/// Whether an error says that memory is out, and nothing else.
pub(crate) fn is_of_memory(alloc: Global, error: &Error) -> Result<bool> {
    let text = format!(in alloc; "{error}")?;
    Ok(matches!(text.as_str(), "out of memory" | "memory allocation failed"))
}

/// Asks the questions of a round, while so many calls of a kind are refused after some others.
/// Returns how many calls of the kind there were. The round may end out of memory, if requests are
/// refused, and nothing may be left of it but the texts that it marked static.
pub(crate) fn ask<R: Machine>(
    asked: &mut Asked<'_, R>,
    number: u64,
    (which, after, many): (u64, u64, u64),
) -> Result<u64> {
    let (first, before) = (asking_count(which), asking_count(LIVE));
    (asked.is_retrying, asked.kept) = (many == 1, 0);
    asking_refuse(which, after, many);
    let (kind, ended) = round(asked, number);
    let calls = asking_count(which) - first;
    asking_refuse(which, 0, 0);
    match &ended {
        Err(error) if many > 0 && which == REQUESTS && is_of_memory(asked.alloc, error)? => {}
        _ => asked.ended(kind, ended)?,
    }
    let kept = asked.kept;
    asked.compare(kind, &(asking_count(LIVE) - before), &kept)?;
    Ok(calls)
}

/// Asks the questions of a round, and then again while each request and each start of a thread is
/// refused in turn, alone and with all later ones.
pub(crate) fn refuse_each<R: Machine>(asked: &mut Asked<'_, R>, number: u64) -> Result<()> {
    let state = asked.state;
    for which in [REQUESTS, STARTS] {
        asked.state = state;
        let calls = ask(asked, number, (which, 0, 0))?;
        let step = 1 + calls / MOST;
        for turn in 0..2 * calls.div_ceil(step) {
            asked.state = state;
            let many = if turn % 2 == 0 { 1 } else { calls };
            ask(asked, number, (which, turn / 2 * step, many))?;
        }
    }
    Ok(())
}
