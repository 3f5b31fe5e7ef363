//! The count of a text after each call, and again after what the call returned is dropped. A call
//! that takes one valid step too many, or forgets a handle, still meets its contract and returns
//! the right value: only the count detects it.
use crate::steps::{count, made, part};
use arcstr::{ArcStr, StrView, Substr, literal};
use std::borrow::CowStr;
use std::cmp::Ordering;
use std::convert::{AsSlice, AsStr};
use std::hash::{DefaultHasher, Hash};
use std::io::AsBytes;
use std::path::AsPath;
use std::process::Abort;
use std::test::Fail;

/// A text of parts, lines and words, of which some are empty.
const TEXT: &str = " a,,é\n\nb ";

fn check_count(rt: &impl Abort, text: &ArcStr, wanted: usize, call: &str) {
    assert_eq!(rt; count(text), Some(wanted), "{call}");
}

fn check_left(rt: &impl Abort, text: &ArcStr, is_right: bool, call: &str) {
    assert!(rt; is_right, "{call}");
    check_count(rt, text, 1, call);
}

/// Asserts that each call returns so many handles on the text, and that dropping them drops these.
macro_rules! check_holds {
    ($rt:expr, $parent:expr, $handles:expr; $($call:expr),+ $(,)?) => {
        $(
            let returned = $call;
            check_count($rt, $parent, 1 + $handles, stringify!($call));
            drop(returned);
            check_count($rt, $parent, 1, stringify!($call));
        )+
    };
}

/// Asserts that each condition holds, and that no handle and no mark stays of it.
macro_rules! check_leaves {
    ($rt:expr, $parent:expr; $($condition:expr),+ $(,)?) => {
        $(
            let is_right = $condition;
            check_left($rt, $parent, is_right, stringify!($condition));
        )+
    };
}

/// The calls of a text or a slice, whose block has no other handle.
macro_rules! check_calls {
    ($rt:expr, $it:expr, $parent:expr) => {{
        let (rt, alloc, it, parent) = ($rt, $rt.alloc(), $it, $parent);
        check_holds!(rt, parent, 1;
            it.clone(rt),
            Clone::clone(it)?,
            it.try_clone(1).ok_or("no clone")?,
            it.substr(rt, 1..3)?,
            it.substr(rt, 1..1)?,
            it.substr_using(rt, |_| 1..3)?,
            it.try_substr_using(rt, |_| 1..3)?,
            it.try_substr_from(rt, it.view()).ok_or("not found")?,
            it.substr_from(rt, it.view().trim()),
            it.substr_trim(rt),
            it.substr_trim_start(rt),
            it.substr_trim_end(rt),
            it.substr_strip_prefix(rt, ' ').ok_or("no prefix")?,
            it.substr_strip_prefix(rt, TEXT).ok_or("no prefix")?,
            it.substr_strip_suffix(rt, "b ").ok_or("no suffix")?,
            it.substr_of_prefix(rt, " a"),
            it.substr_of_suffix(rt, "b "),
        );
        check_holds!(rt, parent, 2;
            it.substr_split_once(rt, ',').ok_or("no comma")?,
            it.substr_rsplit_once(rt, "b ").ok_or("no `b`")?,
            it.substr_split_at(rt, 0)?,
            it.substr_split_whitespace(rt, alloc)?,
        );
        check_holds!(rt, parent, 3;
            it.substr_split(rt, alloc, ',')?,
            it.substr_split(rt, alloc, "\n")?,
            it.substr_lines(rt, alloc)?,
        );
        check_leaves!(rt, parent;
            it.try_clone(0).is_none(),
            it.substr(rt, 2..1).is_err(),
            it.substr(rt, ..99).is_err(),
            it.substr(rt, 5..).is_err(),
            it.substr_using(rt, |_| 0..99).is_err(),
            it.try_substr_using(rt, |_| 5..6).is_err(),
            it.substr_using(rt, |_| 2..2).is_ok_and(|slice| slice.is_empty()),
            it.try_substr_using(rt, |_| 99..99).is_ok_and(|slice| slice.is_empty()),
            it.try_substr_from(rt, StrView::whole("b")).is_none(),
            it.try_substr_from(rt, StrView::whole("")).is_some(),
            it.substr_from(rt, StrView::whole("")).is_empty(),
            it.substr_split_once(rt, 'x').is_none(),
            it.substr_rsplit_once(rt, "x").is_none(),
            it.substr_split_at(rt, 5).is_err(),
            it.substr_strip_prefix(rt, 'x').is_none(),
            it.substr_strip_suffix(rt, "x").is_none(),
            it.as_str() == TEXT && it.eq_str(TEXT),
            it.as_bytes().len() == it.len() && !it.is_empty(),
            it.get(1..2) == Some("a") && it.view().text() == TEXT,
            it.trim().len() == 8 && it.find(',') == Some(2),
            AsStr::as_str(it) == TEXT && AsSlice::as_slice(it) == TEXT.as_bytes(),
            it.path_text() == TEXT && it.as_byte_slice() == TEXT.as_bytes(),
            it == it && it.cmp(it) == Ordering::Equal,
            it.partial_cmp(it) == Some(Ordering::Equal),
            TEXT.find(it) == Some(0) && TEXT.rfind(it) == Some(0) && TEXT.contains(it),
            TEXT.split(it).count() == 2 && TEXT.strip_prefix(it) == Some(""),
            it.to_string(alloc).is_ok(),
            format!(in alloc; "{it} {it:>20} {it:?}").is_ok(),
            it.to_cow().as_str() == TEXT,
            matches!(it.clone(rt).into_cow(alloc), Ok(CowStr::Owned(copy)) if copy.as_str() == TEXT),
            it.to_json(alloc).is_ok(),
            serde_json::to_string(alloc, it).is_ok(),
            ArcStr::join(alloc, &[it.clone(rt), it.clone(rt)], "")?.len() == 2 * TEXT.len(),
            [it.clone(rt), it.clone(rt)].into_iter().collect::<ArcStr>(alloc)?.len() > TEXT.len(),
            [it.clone(rt), it.clone(rt)].into_iter().collect::<String>(alloc)?.len() > TEXT.len(),
            String::from_str(alloc, "x")?.extend([it.clone(rt)]).is_ok(),
        );
        it.hash(&mut DefaultHasher::new());
        assert_eq!(rt; count(parent), Some(1));
    }};
}

#[test]
fn the_calls_of_a_text_leave_its_count(ref rt: HostRuntime) -> Result<(), Fail> {
    let text = &made(rt, TEXT);
    check_calls!(rt, text, text);
    check_holds!(rt, text, 1;
        ArcStr::from_raw(ArcStr::into_raw(text.clone(rt))),
        Substr::full(text.clone(rt)),
        Substr::from(text.clone(rt)),
        Substr::from_parts_unchecked(text.clone(rt), 1..2),
    );
    check_leaves!(rt, text;
        !ArcStr::is_static(text),
        ArcStr::as_static(text).is_none(),
        text.counted().is_some_and(|handle| handle.look().0 == Some(1)),
    );
    let raw = ArcStr::into_raw(text.clone(rt));
    assert_eq!(rt; count(text), Some(2));
    drop(ArcStr::from_raw(raw));
    assert_eq!(rt; count(text), Some(1));
    Ok(())
}

#[test]
fn the_calls_of_a_slice_leave_the_count_of_its_parent(ref rt: HostRuntime) -> Result<(), Fail> {
    let slice = &part(rt, &ArcStr::join(rt.alloc(), &["x", TEXT, "y"], "")?, 1..11);
    check_calls!(rt, slice, slice.parent());
    let copy = &slice.to_arc_str(rt.alloc())?;
    assert_eq!(rt; (count(copy), count(slice.parent())), (Some(1), Some(1)));
    Ok(())
}

/// Asserts that each slice of white space alone keeps the text.
#[test]
fn what_is_trimmed_away_is_kept(ref rt: HostRuntime) -> Result<(), Fail> {
    let text = &made(rt, " \u{3000}\u{85}");
    let slice = &part(rt, &made(rt, "x  x"), 1..3);
    check_holds!(rt, text, 1;
        text.substr_trim(rt), text.substr_trim_start(rt), text.substr_trim_end(rt));
    check_holds!(rt, slice.parent(), 1;
        slice.substr_trim(rt), slice.substr_trim_start(rt), slice.substr_trim_end(rt));
    check_holds!(rt, text, 1; text.substr_split(rt, rt.alloc(), ',')?);
    check_leaves!(rt, text; text.substr_split_whitespace(rt, rt.alloc())?.is_empty());
    Ok(())
}

/// Asserts that each slice of a static text is static, and has the text as its parent.
#[test]
fn the_parts_of_a_static_text_are_static(ref rt: HostRuntime) -> Result<(), Fail> {
    let alloc = rt.alloc();
    for text in [&literal!(" a,b\n"), &made(rt, " a,b\n").leak().to_arc_str()] {
        let pair = text.substr_split_once(rt, ',').ok_or("no comma")?;
        let lists = [
            text.substr_split(rt, alloc, ',')?,
            text.substr_lines(rt, alloc)?,
            text.substr_split_whitespace(rt, alloc)?,
        ];
        for slice in lists
            .iter()
            .flatten()
            .chain([&pair.0, &pair.1, &text.substr_trim(rt)])
        {
            assert!(rt; ArcStr::is_static(slice.parent()) && slice.parent() == text);
        }
    }
    Ok(())
}

#[test]
fn the_text_of_a_leaked_block_is_copied_out(ref rt: HostRuntime) -> Result<(), Fail> {
    let text = made(rt, "foobar");
    let (kept, slice) = (text.leak(), part(rt, &text, ..2));
    let (whole, start) = (text.into_cow(rt.alloc())?, slice.into_cow(rt.alloc())?);
    assert!(rt; matches!(whole, CowStr::Owned(copy) if copy.as_str() == kept.as_str()));
    assert!(rt; matches!(start, CowStr::Owned(copy) if copy.as_str() == "fo"));
    Ok(())
}
