//! Asks the libraries random questions, and compares what they answer with what std answers to the
//! same question, and the counts and marks of texts with what the life of their handles says.
//!
//! Standard input has a seed, the number of rounds, and perhaps a word. After `refused`, each request
//! for memory of these rounds is refused in turn. After `sizes`, large texts and lists are asked in
//! place of rounds. Another word is planted in a text, and has to be seen. Prints the first
//! differences, and then `N answers, M differ`. The status is 0 only if none differs.

#![tactic(auto)]

mod asked;
mod golden;
mod handles;
mod making;
mod memory;
mod parts;
mod sizes;
mod slicing;
mod values;
mod words;

use crate::asked::{Asked, Machine};
use anyhow::{Context, Result};
use std::process::ExitCode;

/// Asks the questions of a round, of which there are kinds.
fn round<R: Machine>(asked: &mut Asked<'_, R>, number: u64) -> (&'static str, Result<()>) {
    match number % 16 {
        0 | 1 => ("patterns", parts::around(asked)),
        2 => ("parts", parts::parts(asked)),
        3 => ("ranges", slicing::ranges(asked)),
        4 => ("views", slicing::views(asked)),
        5 => ("orders", values::orders(asked, "")),
        6 => ("keys", values::keys(asked)),
        7 => ("output", values::output(asked)),
        8 => ("copies", values::copies(asked)),
        9 => ("making", making::copied(asked)),
        10 => ("joining", making::joined(asked)),
        11 => ("building", making::built(asked)),
        12 => ("reading", making::read_whole(asked)),
        13 => ("handles", handles::lives(asked)),
        14 => ("tokens", words::tokens_of_one(asked)),
        _ if number % 64 == 15 => ("tokens of many", words::tokens_of_all(asked)),
        _ if number % 64 == 31 => ("room", words::in_room(asked)),
        _ => ("interning", words::interned(asked)),
    }
}

fn main(rt: HostRuntime) -> Result<ExitCode> {
    let line = rt.lines(rt.alloc()).next().context("no line")??;
    let mut words = line.as_str().split_whitespace();
    let seed = words.next().context("no seed")?.parse::<u64>()?;
    let rounds = words.next().context("no rounds")?.parse::<u64>()?;
    let mut asked = Asked::new(&rt, seed);
    match words.next() {
        Some("sizes") => sizes::ask(&mut asked)?,
        Some("refused") => {
            for number in 0..rounds {
                memory::refuse_each(&mut asked, number)?;
            }
        }
        planted => {
            values::orders(&mut asked, planted.unwrap_or(""))?;
            golden::texts(&mut asked)?;
            for number in 0..rounds {
                memory::ask(&mut asked, number, (0, 0, 0))?;
            }
        }
    }
    Ok(if asked.finish()? { ExitCode::SUCCESS } else { ExitCode::FAILURE })
}
