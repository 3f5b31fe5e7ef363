//! The lines of a text, or its parts between commas, of 40 bytes each: as views, and by `str`.
//!
//! `look_up` gets the entry of each of COUNT words in a `HashMap` with texts as keys, by a `&str`,
//! N / 1000 times.

use crate::no_figure;
use crate::requests::{Machine, Request};
use anyhow::Result;
use arcstr::{ArcStr, StrView};
use std::alloc::{AllocError, Global};
use std::collections::HashMap;

/// The number of bytes of each line and each part, with the character after it.
const STEP: usize = 40;

pub(crate) fn run<M: Machine>(rt: &M, request: &Request) -> Result<()> {
    let alloc = rt.alloc();
    let text = rows(alloc, request)?;
    match request.figure {
        "lines" => request.time_operations(rt, || add_lines(&text)),
        "lines_of_str" => request.time_operations(rt, || add_lines_of_str(&text)),
        "split" => request.time_operations(rt, || add_parts(&text)),
        "split_of_str" => request.time_operations(rt, || add_parts_of_str(&text)),
        "look_up" => {
            let words = words(alloc, request.count)?;
            let places = places(alloc, &words)?;
            request.time_each(rt, &words, 1000, |word| {
                places.get(word.as_str()).map_or(0, |place| *place)
            })
        }
        _ => no_figure(),
    }
}

/// Returns the sum of the lengths and the places of the lines.
fn add_lines(text: &str) -> usize {
    let mut sum = 0usize;
    for line in StrView::whole(text).lines() {
        sum = sum.wrapping_add(line.text().len().wrapping_add(line.place()));
    }
    sum
}

fn add_lines_of_str(text: &str) -> usize {
    let mut sum = 0usize;
    for line in text.lines() {
        sum = sum.wrapping_add(line.len());
    }
    sum
}

/// Returns the sum of the lengths and the places of the parts.
fn add_parts(text: &str) -> usize {
    let mut sum = 0usize;
    for part in StrView::whole(text).split(',') {
        sum = sum.wrapping_add(part.text().len().wrapping_add(part.place()));
    }
    sum
}

fn add_parts_of_str(text: &str) -> usize {
    let mut sum = 0usize;
    for part in text.split(',') {
        sum = sum.wrapping_add(part.len());
    }
    sum
}

/// Returns letters of the request's size, with a line end or a comma in place of each 40th.
fn rows(alloc: Global, request: &Request) -> Result<String, AllocError> {
    let end = if request.figure.starts_with("lines") {
        '\n'
    } else {
        ','
    };
    let mut text = String::with_capacity(alloc, request.size)?;
    for place in 1..request.size + 1 {
        text.push(if place % STEP == 0 { end } else { 'x' })?;
    }
    Ok(text)
}

/// Returns this many words, each with its number.
fn words(alloc: Global, count: usize) -> Result<Vec<String>, AllocError> {
    let mut words = Vec::new(alloc);
    for number in 0..count {
        words.push(format!(in alloc; "word {number}")?)?;
    }
    Ok(words)
}

/// Returns a map from each word to its position.
fn places(alloc: Global, words: &[String]) -> Result<HashMap<ArcStr, usize>> {
    let mut places = HashMap::new(alloc);
    for (place, word) in words.iter().enumerate() {
        places.insert(ArcStr::from_str(alloc, word)?, place)?;
    }
    Ok(places)
}
