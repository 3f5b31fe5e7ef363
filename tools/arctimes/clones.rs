//! Clone and drop of a text.
//!
//! `clone_drop` reads the length of each clone, and a figure with `bare` does not. `slice` clones a
//! slice of a whole text. `contended` clones one text in THREADS threads. The others clone eight
//! handles in turn: on a literal, on the empty literal, made from a `StaticStr`, or counted before
//! their block was marked static (`marked`).

use crate::no_figure;
use crate::requests::{Machine, Request, add_each, add_times};
use anyhow::Result;
use arcstr::{ArcStr, Substr, literal};
use std::sync::Wait;
use std::thread;
use std::time::Instant;

pub(crate) fn run<M: Machine>(rt: &M, request: &Request) -> Result<()> {
    let text = request.text(rt.alloc())?;
    let operations = request.operations;
    match request.figure {
        "clone_drop" => request.time(rt, || Ok(clone_and_read(rt, &text, operations))),
        "clone_drop_bare" => request.time(rt, || Ok(clone_unread(rt, &text, operations))),
        "clone_drop_slice" => {
            let slice = Substr::full(text);
            request.time_operations(rt, || slice.clone(rt).len())
        }
        "clone_drop_contended" => {
            time_threads(rt, request, |_| clone_and_read(rt, &text, operations))
        }
        "clone_drop_contended_bare" => {
            time_threads(rt, request, |_| clone_unread(rt, &text, operations))
        }
        "clone_drop_literal" => time_handles(
            rt,
            request,
            literal!("a literal text, in read-only memory"),
        ),
        "clone_drop_empty" => time_handles(rt, request, ArcStr::new()),
        "clone_drop_fixed" => time_handles(rt, request, text.leak().to_arc_str()),
        "clone_drop_marked" => time_handles(rt, request, text),
        _ => no_figure(),
    }
}

/// Does the work in each thread of the request.
fn time_threads<M: Machine, F: Fn(usize) -> usize + Sync>(
    rt: &M,
    request: &Request,
    work: F,
) -> Result<()>
    requires { F.IsAlwaysCallable work }
{
    for _ in 0..request.rounds {
        let start = Instant::now(rt)?;
        let sums = thread::map_indices(rt, rt.alloc(), request.threads, &work)?;
        request.finish(rt, start, add_each(&sums, 1, |sum| *sum))?;
    }
    Ok(())
}

/// Clones a text, reads the length of each clone, and drops it.
fn clone_and_read<R: Wait>(rt: &R, text: &ArcStr, operations: usize) -> usize {
    add_times(operations, || text.clone(rt).len())
}

/// Clones a text, and drops each clone unread.
fn clone_unread<R: Wait>(rt: &R, text: &ArcStr, operations: usize) -> usize {
    for _ in 0..operations {
        drop(text.clone(rt));
    }
    operations
}

/// Clones eight handles in turn.
fn time_handles<M: Machine>(rt: &M, request: &Request, one: ArcStr) -> Result<()> {
    let all = eight_clones(rt, &one)?;
    if request.figure == "clone_drop_marked" {
        // The handles were counted before their block is marked static.
        let _ = one.leak();
    }
    request.time_each(rt, &all, 8, |text| text.clone(rt).len())
}

pub(crate) fn eight_clones<M: Machine>(rt: &M, one: &ArcStr) -> Result<Vec<ArcStr>> {
    let mut all = Vec::new(rt.alloc());
    for _ in 0..8 {
        all.push(one.clone(rt))?;
    }
    Ok(all)
}
