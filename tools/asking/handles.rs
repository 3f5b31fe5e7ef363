//! Handles: clones, slices, raw handles and drops, with the count and the mark after each.

use crate::asked::{Asked, Machine, same};
use crate::memory::takes;
use anyhow::{Context, Result};
use arcstr::block::Shared;
use arcstr::{ArcStr, End, Seen, Substr};

/// How many handles a text has, and whether it is static.
#[derive(Clone, Copy)]
struct Life {
    handles: usize,
    is_static: bool,
}

impl Life {
    fn count(self) -> Option<usize> {
        if self.is_static { None } else { Some(self.handles) }
    }

    /// Drops a handle, and returns how it ended.
    fn end(&mut self) -> End {
        self.handles -= 1;
        match self.count() {
            None => End::Ended,
            Some(0) => End::Freed,
            Some(_) => End::Left,
        }
    }
}

/// A literal, a permanent block, or a block that is counted.
fn text_of_kind<R: Machine>(asked: &mut Asked<'_, R>, kind: usize) -> Result<ArcStr> {
    Ok(match kind {
        0 => ArcStr::from_static("aé"),
        1 => {
            let text = ArcStr::from_str(asked.alloc, "foobar")?;
            asked.leak(&text).to_arc_str()
        }
        2 => ArcStr::from_shared(Shared::from_text(asked.alloc, "foo")?),
        _ => ArcStr::from_str(asked.alloc, "foo bar")?,
    })
}

/// Makes a handle in one of the ways.
fn again<R: Machine>(
    asked: &mut Asked<'_, R>,
    first: &ArcStr,
    seen: &Option<Seen>,
) -> Result<Substr> {
    let (rt, start) = (asked.rt, asked.boundary(first.as_str()));
    Ok(match asked.below(8) {
        0 => Substr::full(first.clone(rt)),
        1 => first.substr(rt, start..)?,
        2 => Substr::full(ArcStr::from_raw(ArcStr::into_raw(first.clone(rt)))),
        3 => Substr::full(first.try_clone(1).context("no clone")?),
        4 => first.substr(rt, ..start)?.try_clone(3).context("no clone")?,
        5 => first.substr(rt, start..)?.clone(rt),
        6 => Substr::full(first.clone_after(rt, seen).0),
        _ => Substr::full(Clone::clone(first)?),
    })
}

/// Asks for the count and the mark, in each way. Returns what was seen of the block.
fn look<R: Machine>(
    asked: &mut Asked<'_, R>,
    text: &ArcStr,
    life: Life,
    before: &Option<Seen>,
) -> Result<Option<Seen>> {
    let (count, seen) = ArcStr::strong_count_after(text, before);
    let (is_static, seen) = ArcStr::is_static_after(text, &seen);
    same!(asked; (count, is_static), (life.count(), life.is_static));
    same!(asked; ArcStr::strong_count(text), life.count());
    same!(asked; ArcStr::is_static(text), life.is_static);
    same!(asked; ArcStr::as_static(text).is_some_and(|it| it.is_static()), life.is_static);
    if let Some(handle) = text.counted() {
        same!(asked; handle.look().0.map(|count| count as usize), life.count());
        same!(asked; text.try_clone(0).is_some(), life.is_static);
    }
    Ok(seen)
}

pub(crate) fn lives<R: Machine>(asked: &mut Asked<'_, R>) -> Result<()> {
    let kind = asked.below(6);
    let (first, mut seen) = (text_of_kind(asked, kind)?, None);
    let mut life = Life { handles: 1, is_static: kind < 2 };
    let mut handles: Vec<Substr> = Vec::new(asked.alloc);
    let steps = if asked.one_in(4) { 90 } else { 12 };
    for _ in 0..asked.below(steps) {
        let (step, at) = (asked.below(20), asked.below(handles.len()));
        if step == 0 && asked.one_in(3) {
            let kept = takes!(asked; (0, 0), asked.leak(&first));
            same!(asked; (kept.as_str(), kept.len()), (first.as_str(), first.len()));
            same!(asked; kept.literal(), if kind == 0 { Some("aé") } else { None });
            let (kept, now) = first.leak_after(&seen);
            same!(asked; kept.to_arc_str().as_str(), first.as_str());
            (life.is_static, seen) = (true, now);
        } else if step < 5 && at < handles.len() {
            let handle = handles.swap_remove(at);
            let ended = match step {
                0 | 1 => handle.end().0,
                2 => match handle.into_shared() {
                    Some(shared) => shared.end().0,
                    None => End::Ended,
                },
                _ => handle.end_after(&seen).0,
            };
            same!(asked; ended, life.end());
        } else {
            let handle = takes!(asked; (0, 0), again(asked, &first, &seen)?);
            handles.push(handle)?;
            life.handles += 1;
        }
        seen = look(asked, &first, life, &seen)?;
    }
    let ended = first.clone(asked.rt).end().0;
    same!(asked; ended, if life.is_static { End::Ended } else { End::Left });
    for handle in handles {
        drop(handle);
        life.handles -= 1;
        same!(asked; ArcStr::strong_count(&first), life.count());
    }
    same!(asked; first.end_after(&seen).0, life.end());
    Ok(())
}
