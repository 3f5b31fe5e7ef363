//! Comparisons of texts, and reads of many short ones.
//!
//! `eq` and `cmp` compare eight texts in turn, each in its own block, with one more, and `eq_clone`
//! eight clones of that one. `hash` hashes the eight, and `get` takes all but their first byte.
//! `eq_slice` and `get_slice` do so with slices of whole texts. A figure with `read` reads COUNT
//! texts of 16 bytes in mixed order N / 1000 times: the length, the last byte, or the last byte of
//! the slice 1..15.

use crate::clones::eight_clones;
use crate::no_figure;
use crate::requests::{Machine, Request, many};
use anyhow::Result;
use arcstr::{ArcStr, StrRange, Substr};
use std::cmp::Ordering;
use std::hash::{DefaultHasher, Hash, Hasher};

/// The text of each of many: 16 bytes.
const TEXT: &str = "0123456789abcdef";

/// Compares eight texts, each in its own block, with one more; or reads many texts.
pub(crate) fn run<M: Machine>(rt: &M, request: &Request) -> Result<()> {
    if request.figure.starts_with("read") {
        return run_reads(rt, request);
    }
    let one = request.text(rt.alloc())?;
    let all = request.eight(rt.alloc())?;
    let slice = one.substr(rt, ..)?;
    let slices = slices_of(rt, &all, (..).into())?;
    match request.figure {
        "eq" => request.time_each(rt, &all, 8, |text| (*text == one) as usize),
        "eq_clone" => {
            let all = eight_clones(rt, &one)?;
            request.time_each(rt, &all, 8, |text| (*text == one) as usize)
        }
        "cmp" => request.time_each(rt, &all, 8, |text| rank(text.cmp(&one))),
        "hash" => request.time_each(rt, &all, 8, hash_of),
        "get" => request.time_each(rt, &all, 8, |text| length(text.get(1..))),
        "eq_slice" => request.time_each(rt, &slices, 8, |other| (*other == slice) as usize),
        "get_slice" => request.time_each(rt, &slices, 8, |slice| length(slice.get(1..))),
        _ => no_figure(),
    }
}

fn length(part: Option<&str>) -> usize {
    part.map_or(0, |part| part.len())
}

fn rank(order: Ordering) -> usize {
    match order {
        Ordering::Less => 1,
        Ordering::Equal => 2,
        Ordering::Greater => 3,
    }
}

fn hash_of(text: &ArcStr) -> usize {
    let mut hasher = DefaultHasher::new();
    text.hash(&mut hasher);
    hasher.finish() as usize
}

fn run_reads<M: Machine>(rt: &M, request: &Request) -> Result<()> {
    let all = mixed(rt, request)?;
    match request.figure {
        "read_len" => request.time_each(rt, &all, 1000, |text| text.len()),
        "read_byte" => request.time_each(rt, &all, 1000, |text| last_byte(text.as_bytes())),
        "read_slice" => {
            let slices = slices_of(rt, &all, (1..15).into())?;
            request.time_each(rt, &slices, 1000, |slice| last_byte(slice.as_bytes()))
        }
        _ => no_figure(),
    }
}

fn last_byte(bytes: &[u8]) -> usize {
    bytes.last().map_or(0, |byte| *byte as usize)
}

/// Returns as many texts as the request asks for, in steps of 7919, so that neighbours in the list
/// are not neighbours in memory.
fn mixed<M: Machine>(rt: &M, request: &Request) -> Result<Vec<ArcStr>> {
    let texts = many(rt.alloc(), TEXT, request.count)?;
    let mut handles = Vec::new(rt.alloc());
    for turn in 0..texts.len() {
        let place = turn.wrapping_mul(7919) % texts.len();
        handles.push(texts[place].clone(rt))?;
    }
    Ok(handles)
}

/// Returns the slice in this range of each text.
fn slices_of<M: Machine>(rt: &M, texts: &[ArcStr], range: StrRange) -> Result<Vec<Substr>> {
    let mut slices = Vec::new(rt.alloc());
    for text in texts {
        slices.push(text.substr(rt, range)?)?;
    }
    Ok(slices)
}
