//! Making and dropping of texts, of slices and of JSON strings. The length of each is read.
//!
//! `build` pushes 8 bytes at a time into a builder, `build_full` into one with the capacity of the
//! text, and `build_string` into a `String` that is copied. `format` writes a text and a number.
//! `read_from` reads standard input once a round, or a few bytes in a short one. The slices are
//! 1000..3000 of a text and of a slice.

use crate::no_figure;
use crate::requests::{Machine, Request, letters};
use anyhow::Result;
use arcstr::{ArcStr, ArcStrBuilder, Substr, TextFault, format_arcstr};
use serde_json::Value;
use std::alloc::{AllocError, Global};

/// What a figure of building appends at a time.
const PIECE: &str = "xxxxxxxx";

pub(crate) fn run<M: Machine>(rt: &M, request: &Request) -> Result<()> {
    let (alloc, size) = (rt.alloc(), request.size);
    let text = letters(alloc, size, size)?;
    match request.figure {
        "make_drop" => request.time_operations(rt, || len_of(ArcStr::from_str(alloc, &text))),
        "build" => request.time_operations(rt, || len_of(built(alloc, 0, size))),
        "build_full" => request.time_operations(rt, || len_of(built(alloc, size, size))),
        "build_string" => request.time_operations(rt, || len_of(built_string(alloc, size))),
        "format" => request.time_operations(
            rt,
            || len_of(format_arcstr!(alloc; "{}: {}", text, size)),
        ),
        "read_from" => request.time(rt, || len_of_input(rt, request.is_short)),
        "substr" => {
            let text = request.text(alloc)?;
            request.time_operations(rt, || slice_len(text.substr(rt, 1000..3000)))
        }
        "substr_of_substr" => {
            let whole = Substr::full(request.text(alloc)?);
            request.time_operations(rt, || slice_len(whole.substr(rt, 1000..3000)))
        }
        "to_json" => {
            let texts = request.eight(alloc)?;
            request.time_each(rt, &texts, 8, |text| json_len(alloc, text))
        }
        "from_json" => {
            let values = values_of(alloc, &request.eight(alloc)?)?;
            request.time_each(
                rt,
                &values,
                8,
                |value| len_of(ArcStr::from_json(alloc, value)),
            )
        }
        _ => no_figure(),
    }
}

/// Returns the length of a text, and drops it.
fn len_of<E: Drop>(made: Result<ArcStr, E>) -> usize {
    match made {
        Ok(text) => text.len(),
        Err(_) => 0,
    }
}

/// Builds a text of this size in a builder of a capacity, piece by piece.
fn built(alloc: Global, capacity: usize, size: usize) -> Result<ArcStr, TextFault> {
    let mut builder = ArcStrBuilder::with_capacity(alloc, capacity)?;
    for _ in 0..size / PIECE.len() {
        builder.push_str(PIECE)?;
    }
    builder.finish()
}

/// Builds the same text in a `String`, and copies it.
fn built_string(alloc: Global, size: usize) -> Result<ArcStr, TextFault> {
    let mut string = String::new(alloc);
    for _ in 0..size / PIECE.len() {
        string.push_str(PIECE)?;
    }
    ArcStr::from_str(alloc, &string)
}

/// Returns the length of a text of what standard input gives.
fn len_of_input<M: Machine>(rt: &M, is_short: bool) -> Result<usize> {
    let made = if is_short {
        ArcStr::read_from(rt.alloc(), PIECE.as_bytes())
    } else {
        ArcStr::read_from(rt.alloc(), rt.reader())
    };
    Ok(made?.len())
}

/// Returns the length of a slice, and drops it.
fn slice_len<E: Drop>(made: Result<Substr, E>) -> usize {
    match made {
        Ok(slice) => slice.len(),
        Err(_) => 0,
    }
}

/// Returns the length of a text as a JSON string.
fn json_len(alloc: Global, text: &ArcStr) -> usize {
    match text.to_json(alloc) {
        Ok(Value::String(string)) => string.len(),
        _ => 0,
    }
}

fn values_of(alloc: Global, texts: &[ArcStr]) -> Result<Vec<Value>, AllocError> {
    let mut values = Vec::new(alloc);
    for text in texts {
        values.push(text.to_json(alloc)?)?;
    }
    Ok(values)
}
