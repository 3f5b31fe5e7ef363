//! Ranges of all forms, slices and views.

use crate::asked::{Asked, Machine, Pair, Piece, one, piece, same};
use crate::memory::takes;
use anyhow::Result;
use arcstr::range::{checked_ends, is_boundary, slice};
use arcstr::{ArcStr, RangeFault, StrRange, StrView, Substr, literal_substr};

type Checked<T> = std::result::Result<T, RangeFault>;

/// A range of a form, and its start and its end in a text of `len` bytes.
fn range_of(form: usize, start: usize, end: usize, len: usize) -> (StrRange, u128, u128) {
    let (range, from, to) = match form {
        0 => (StrRange::from(start..end), start, end),
        1 => (StrRange::from(start..), start, len),
        2 => (StrRange::from(..end), 0, end),
        3 => (StrRange::from(..), 0, len),
        4 => (StrRange::from(start..=end), start, end),
        _ => (StrRange::from(..=end), 0, end),
    };
    (range, from as u128, to as u128 + u128::from(form > 3))
}

/// The part of a text between these ends, or their first fault.
fn part(text: &str, from: u128, to: u128) -> Checked<Piece<'_>> {
    if from > to {
        return Err(RangeFault::OutOfOrder);
    }
    if to > text.len() as u128 {
        return Err(RangeFault::PastEnd);
    }
    let found = text.get(from as usize..to as usize).ok_or(RangeFault::OffBoundary)?;
    Ok((from as usize, found))
}

fn made(slice: &Checked<Substr>) -> Checked<Piece<'_>> {
    match slice {
        Ok(slice) => Ok(piece(slice)),
        Err(fault) => Err(*fault),
    }
}

/// Asks a text or a slice, whose text begins at `base`, about a range.
macro_rules! ask_range {
    ($asked:expr, $it:expr, $text:expr, $base:expr) => {{
        let (asked, it, text, base) = ($asked, $it, $text, $base);
        let (rt, form) = (asked.rt, asked.below(6));
        let (start, end) = (asked.place(text), asked.place(text));
        let (range, from, to) = range_of(form, start, end, text.len());
        let wanted = part(text, from, to);
        let ends = wanted.map(|(start, part)| (start, start + part.len()));
        same!(asked; checked_ends(text, range), ends);
        if ends != Err(RangeFault::OffBoundary) {
            same!(asked; range.ends(text.len()), ends);
        }
        same!(asked; is_boundary(text, start), text.is_char_boundary(start));
        let found = wanted.map(|it| it.1).ok();
        same!(asked; (slice(text, range), it.get(range)), (found, found));
        same!(asked; made(&it.substr(rt, range)), wanted.map(|it| (base + it.0, it.1)));
        let found = text.get(start..end).map(|it| (start, it));
        same!(asked; it.view().cut(start..end).map(|it| (it.place(), it.text())), found);
        // Equal ends are not tested.
        let wanted = match part(text, start as u128, end as u128) {
            _ if start == end => Ok((0, "")),
            wanted => wanted.map(|it| (base + it.0, it.1)),
        };
        same!(asked; made(&it.substr_using(rt, |_| start..end)), wanted);
        same!(asked; made(&it.try_substr_using(rt, |_| start..end)), wanted);
    }};
}

pub(crate) fn ranges<R: Machine>(asked: &mut Asked<'_, R>) -> Result<()> {
    let pair = Pair::random(asked)?;
    takes!(asked; (0, 0), {
        ask_range!(&mut *asked, &pair.whole, pair.text.as_str(), 0);
        ask_range!(&mut *asked, &pair.slice, pair.own(), pair.start);
    });
    Ok(())
}

/// Asks a text or a slice, whose text begins at `base`, for the slices of views.
macro_rules! ask_view {
    ($asked:expr, $it:expr, $text:expr, $base:expr) => {{
        let (asked, it, text, base) = ($asked, $it, $text, $base);
        let (rt, range) = (asked.rt, asked.part(text));
        let (start, own) = (range.start, text.get(range).unwrap_or(""));
        let (other, moved) = (asked.text_like(own)?, asked.place(text));
        for (part, place) in [(own, start), (other.as_str(), start), (own, moved)] {
            let end = place.checked_add(part.len());
            let found = end.and_then(|end| text.get(place..end)).filter(|it| *it == part);
            let found = found.map(|it| (base + place, it));
            let wanted = if part.is_empty() { Some((0, "")) } else { found };
            let view = StrView::at(part, place);
            same!(asked; view.as_ref().map(|it| it.range()), end.map(|end| place..end));
            let Some(view) = view else { continue };
            same!(asked; (view.copied() == view, view.text()), (true, part));
            same!(asked; view.is_found_in(text), wanted.is_some());
            if let Some(wanted) = wanted {
                same!(asked; piece(&it.substr_from(rt, view.copied())), wanted);
            }
            same!(asked; one(&it.try_substr_from(rt, view)), wanted);
        }
    }};
}

/// Slices of views, and what a text and a slice say of themselves.
pub(crate) fn views<R: Machine>(asked: &mut Asked<'_, R>) -> Result<()> {
    let pair = Pair::random(asked)?;
    ask_view!(&mut *asked, &pair.whole, pair.text.as_str(), 0);
    ask_view!(&mut *asked, &pair.slice, pair.own(), pair.start);
    let (rt, alloc, text, own) = (asked.rt, asked.alloc, pair.text.as_str(), pair.own());
    let (whole, slice, wanted) = (&pair.whole, &pair.slice, (pair.start, pair.own()));
    same!(asked; (whole.len(), whole.is_empty()), (text.len(), text.is_empty()));
    same!(asked; (slice.len(), slice.is_empty()), (own.len(), own.is_empty()));
    same!(asked; (whole.as_bytes(), slice.as_bytes()), (text.as_bytes(), own.as_bytes()));
    same!(asked; (slice.parent().as_str(), StrView::whole(text).range()), (text, 0..text.len()));
    let again = Substr::from_parts_unchecked(whole.clone(rt), slice.range());
    same!(asked; (piece(&again), piece(&slice.clone(rt))), (wanted, wanted));
    same!(asked; piece(&Substr::full(whole.clone(rt))), (0, text));
    same!(asked; piece(&Substr::from(whole.clone(rt))), (0, text));
    let before = text.get(..pair.start).unwrap_or("");
    let line = before.chars().filter(|it| *it == '\n').count() + 1;
    let column = before.chars().rev().take_while(|it| *it != '\n').count() + 1;
    let at = slice.line_and_column();
    same!(asked; (at.line, at.column), (line, column));
    same!(asked; whole.line_and_column(pair.start), Some(at));
    let place = asked.place(text);
    same!(asked; whole.line_and_column(place).is_some(), text.is_char_boundary(place));
    let copy = slice.to_arc_str(alloc)?;
    let count = if own.is_empty() { None } else { Some(1) };
    same!(asked; (copy.as_str(), ArcStr::strong_count(&copy)), (own, count));
    same!(asked; slice.to_string(alloc)?.as_str(), own);
    same!(asked; whole.to_string(alloc)?.as_str(), text);
    let faults = [RangeFault::OutOfOrder, RangeFault::PastEnd, RangeFault::OffBoundary];
    same!(asked; faults.map(|it| it.number()), [1, 2, 4]);
    same!(asked; (piece(&Substr::new()), piece(&Substr::default())), ((0, ""), (0, "")));
    same!(asked; piece(&Substr::from_static("aé")), (0, "aé"));
    same!(asked; piece(&literal_substr!("é")), (0, "é"));
    Ok(())
}
