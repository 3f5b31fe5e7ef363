//! Parts of texts, slices and views: around patterns, lines, words, and without white space.

use crate::asked::{Asked, Machine, Pair, Piece, one, piece, pieces, same};
use anyhow::Result;
use arcstr::{ArcStr, RangeFault, StrView, Substr};
use std::alloc::Global;
use std::str::pattern::Pattern;

type Pieces<'a> = Vec<Piece<'a>>;

fn both(slices: &Option<(Substr, Substr)>) -> Option<(Piece<'_>, Piece<'_>)> {
    slices.as_ref().map(|it| (piece(&it.0), piece(&it.1)))
}

fn seen<'a>(view: StrView<'a>) -> Piece<'a> {
    (view.place(), view.text())
}

fn seen_both<'a>(views: (StrView<'a>, StrView<'a>)) -> (Piece<'a>, Piece<'a>) {
    (seen(views.0), seen(views.1))
}

fn seen_all<'a>(alloc: Global, views: impl Iterator<Item = StrView<'a>>) -> Result<Pieces<'a>> {
    Ok(views.map(seen).collect(alloc)?)
}

/// The parts of `str::split`, each with its place, in a text that begins at `base`.
fn split<'a, Q: Pattern + Copy + Drop>(
    alloc: Global,
    text: &'a str,
    base: usize,
    q: Q,
) -> Result<Pieces<'a>> {
    let (mut list, mut place, mut matches) = (Vec::new(alloc), base, text.matches(q));
    for part in text.split(q) {
        list.push((place, part))?;
        place += part.len() + matches.next().map_or(0, str::len);
    }
    Ok(list)
}

fn lines(alloc: Global, text: &str, base: usize) -> Result<Pieces<'_>> {
    let (mut list, mut place) = (Vec::new(alloc), 0);
    for line in text.lines() {
        list.push((base + place, line))?;
        place += line.len();
        let is_wide = text.get(place..).unwrap_or("").starts_with("\r\n");
        place += if is_wide { 2 } else { 1 };
    }
    Ok(list)
}

pub(crate) fn words(alloc: Global, text: &str, base: usize) -> Result<Pieces<'_>> {
    let (mut list, mut place) = (Vec::new(alloc), 0);
    for word in text.split_whitespace() {
        let rest = text.get(place..).unwrap_or("");
        place += rest.len() - rest.trim_start().len();
        list.push((base + place, word))?;
        place += word.len();
    }
    Ok(list)
}

/// The part at the end of a text that begins at `base`.
fn last<'a>(text: &'a str, base: usize, part: &'a str) -> Piece<'a> {
    (base + text.len() - part.len(), part)
}

/// Two parts of a text that begins at `base`: at its start, and at its end.
fn ends<'a>(text: &'a str, base: usize, parts: (&'a str, &'a str)) -> (Piece<'a>, Piece<'a>) {
    ((base, parts.0), last(text, base, parts.1))
}

/// Asks a text or a slice, whose text begins at `base`, for the parts around a pattern `p`. Where a
/// pattern is of a type of the libraries, std gets the same as another type, `q`.
macro_rules! ask_pattern {
    ($asked:expr, $it:expr, $text:expr, $base:expr, $p:expr, $q:expr) => {{
        let (asked, it, text, base, p, q) = ($asked, $it, $text, $base, $p, $q);
        let (rt, alloc, view) = (asked.rt, asked.alloc, it.view());
        let list = it.substr_split(rt, alloc, p)?;
        same!(asked; pieces(alloc, list.as_slice())?, split(alloc, text, base, q)?);
        same!(asked; seen_all(alloc, view.split_by(p))?, split(alloc, text, 0, q)?);
        let parts = text.split_once(q);
        let wanted = parts.map(|it| ends(text, base, it));
        same!(asked; both(&it.substr_split_once(rt, p)), wanted);
        same!(asked; view.split_once(p).map(seen_both), parts.map(|it| ends(text, 0, it)));
        let parts = text.rsplit_once(q);
        let wanted = parts.map(|it| ends(text, base, it));
        same!(asked; both(&it.substr_rsplit_once(rt, p)), wanted);
        same!(asked; view.rsplit_once(p).map(seen_both), parts.map(|it| ends(text, 0, it)));
        let part = text.strip_prefix(q);
        same!(asked; one(&it.substr_strip_prefix(rt, p)), part.map(|it| last(text, base, it)));
        same!(asked; view.strip_prefix(p).map(seen), part.map(|it| last(text, 0, it)));
        let part = text.strip_suffix(q);
        same!(asked; one(&it.substr_strip_suffix(rt, p)), part.map(|it| (base, it)));
        same!(asked; view.strip_suffix(p).map(seen), part.map(|it| (0, it)));
        same!(asked; (view.find(p), view.rfind(p)), (text.find(q), text.rfind(q)));
        same!(asked; (it.contains(p), it.matches(p).count()),
            (text.contains(q), text.matches(q).count()));
        same!(asked; (it.starts_with(p), it.ends_with(p)),
            (text.starts_with(q), text.ends_with(q)));
    }};
}

fn by_pattern<R: Machine, P: Pattern + Copy + Drop, Q: Pattern + Copy + Drop>(
    asked: &mut Asked<'_, R>,
    pair: &Pair,
    p: P,
    q: Q,
) -> Result<()> {
    ask_pattern!(&mut *asked, &pair.whole, pair.text.as_str(), 0, p, q);
    ask_pattern!(&mut *asked, &pair.slice, pair.own(), pair.start, p, q);
    Ok(())
}

/// Parts around a pattern of each type.
pub(crate) fn around<R: Machine>(asked: &mut Asked<'_, R>) -> Result<()> {
    let pair = Pair::random(asked)?;
    let needle = asked.needle(pair.own())?;
    let (needle, one, other) = (needle.as_str(), asked.character(), asked.character());
    match asked.below(7) {
        0 => by_pattern(asked, &pair, one, one),
        1 => by_pattern(asked, &pair, needle, needle),
        2 => by_pattern(asked, &pair, [one, other], [one, other]),
        3 => by_pattern(asked, &pair, char::is_whitespace, char::is_whitespace),
        4 => by_pattern(asked, &pair, |c: char| c == one, one),
        5 => by_pattern(asked, &pair, &ArcStr::from_str(asked.alloc, needle)?, needle),
        _ => by_pattern(asked, &pair, &Substr::from_str(asked.alloc, needle)?, needle),
    }
}

/// Asks a text or a slice, whose text begins at `base`, for its parts.
macro_rules! ask_parts {
    ($asked:expr, $it:expr, $text:expr, $base:expr) => {{
        let (asked, it, text, base) = ($asked, $it, $text, $base);
        let (rt, alloc, view) = (asked.rt, asked.alloc, it.view());
        let list = it.substr_lines(rt, alloc)?;
        same!(asked; pieces(alloc, list.as_slice())?, lines(alloc, text, base)?);
        same!(asked; seen_all(alloc, view.lines())?, lines(alloc, text, 0)?);
        let list = it.substr_split_whitespace(rt, alloc)?;
        same!(asked; pieces(alloc, list.as_slice())?, words(alloc, text, base)?);
        same!(asked; seen_all(alloc, view.split_whitespace())?, words(alloc, text, 0)?);
        let c = asked.character();
        same!(asked; seen_all(alloc, view.split(c))?, split(alloc, text, 0, c)?);
        let (start, end, middle) = (text.trim_start(), text.trim_end(), text.trim());
        let place = text.len() - start.len();
        same!(asked; piece(&it.substr_trim_start(rt)), (base + place, start));
        same!(asked; piece(&it.substr_trim_end(rt)), (base, end));
        same!(asked; piece(&it.substr_trim(rt)), (base + place, middle));
        same!(asked; (seen(view.trim_start()), seen(view.trim_end())), ((place, start), (0, end)));
        same!(asked; seen(view.trim()), (place, middle));
        let (start, end) = (text.trim_start_matches(c), text.trim_end_matches(c));
        same!(asked; piece(&it.substr_of_prefix(rt, end)), (base, end));
        same!(asked; piece(&it.substr_of_suffix(rt, start)), last(text, base, start));
        let place = asked.place(text);
        let parts = text.split_at_checked(place);
        same!(asked; view.split_at(place).map(seen_both), parts.map(|it| ends(text, 0, it)));
        let wanted = parts.map(|it| ends(text, base, it));
        let is_past = place > text.len();
        let fault = if is_past { RangeFault::PastEnd } else { RangeFault::OffBoundary };
        let fault = if wanted.is_none() { Some(fault) } else { None };
        let slices = it.substr_split_at(rt, place);
        same!(asked; slices.as_ref().err().copied(), fault);
        same!(asked; both(&slices.ok()), wanted);
    }};
}

/// Lines, words, trims, and the parts at a place. Each slice keeps the text alive.
pub(crate) fn parts<R: Machine>(asked: &mut Asked<'_, R>) -> Result<()> {
    let pair = Pair::random(asked)?;
    ask_parts!(&mut *asked, &pair.whole, pair.text.as_str(), 0);
    ask_parts!(&mut *asked, &pair.slice, pair.own(), pair.start);
    let list = pair.whole.substr_lines(asked.rt, asked.alloc)?;
    let handles = if pair.text.is_empty() { None } else { Some(2 + list.len()) };
    same!(asked; ArcStr::strong_count(&pair.whole), handles);
    same!(asked; list.len(), pair.text.as_str().lines().count());
    Ok(())
}
