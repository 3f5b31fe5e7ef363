//! Times the calls of `arcstr`, `arctokens` and `arcintern`, one figure after another.
//!
//! `arctimes FIGURE N ROUNDS THREADS SIZE AT COUNT` times one figure, and prints a line for each
//! round: `FIGURE THREADS SIZE NANOSECONDS N SUM`.
//!
//! Without arguments, it does a short round of each figure. Standard output then has the name and
//! SUM of each, which are the same in every run, and standard error has the table of times.
#![tactic(auto)]

mod clones;
mod interner;
mod makings;
mod parts;
mod reads;
mod requests;
mod words;

use crate::requests::{Machine, Request};
use anyhow::{Result, bail};
use std::env;

/// Figures of one file, whose function `run` prepares what their rounds need, and times them.
#[derive(Clone, Copy)]
enum Family {
    Clones,
    Makings,
    Reads,
    Words,
    Parts,
    Interner,
}

/// The names of the figures, each of which has an arm in its family's function.
const FIGURES: [(Family, &str); 13] = [
    (
        Family::Clones,
        "clone_drop clone_drop_bare clone_drop_slice",
    ),
    (
        Family::Clones,
        "clone_drop_contended clone_drop_contended_bare",
    ),
    (Family::Clones, "clone_drop_literal clone_drop_empty"),
    (Family::Clones, "clone_drop_fixed clone_drop_marked"),
    (Family::Makings, "make_drop build build_full build_string"),
    (Family::Makings, "format read_from"),
    (Family::Makings, "substr substr_of_substr to_json from_json"),
    (Family::Reads, "eq eq_clone cmp hash get eq_slice get_slice"),
    (Family::Reads, "read_len read_byte read_slice"),
    (
        Family::Words,
        "count_words_only word_ranges_only words token_list",
    ),
    (
        Family::Parts,
        "lines lines_of_str split split_of_str look_up",
    ),
    (Family::Interner, "intern intern_get intern_list list_get"),
    (Family::Interner, "intern_shared intern_shared_new"),
];

fn main(rt: HostRuntime) -> Result<()> {
    let given: Vec<String> = env::args(&rt)?.skip(1).collect(rt.alloc())?;
    let wanted = given.first().map(|name| name.as_str());
    let mut is_known = wanted == None;
    for (family, names) in FIGURES {
        for figure in names.split(' ') {
            if wanted == None || wanted == Some(figure) {
                is_known = true;
                run(&rt, family, &Request::new(figure, &given)?)?;
            }
        }
    }
    if is_known { Ok(()) } else { no_figure() }
}

fn run<M: Machine>(rt: &M, family: Family, request: &Request) -> Result<()> {
    match family {
        Family::Clones => clones::run(rt, request),
        Family::Makings => makings::run(rt, request),
        Family::Reads => reads::run(rt, request),
        Family::Words => words::run(rt, request),
        Family::Parts => parts::run(rt, request),
        Family::Interner => interner::run(rt, request),
    }
}

/// Returns an error for a name that no figure has.
fn no_figure<T>() -> Result<T> {
    bail!("there is no figure of this name");
}
