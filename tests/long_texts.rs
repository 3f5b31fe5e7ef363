//! A text of 20,000,000 bytes through the calls that take one, and texts of many parts. The
//! contracts say what a call returns where it succeeds, so the tests look at lengths and places,
//! and not at each byte.
use crate::steps::{count, made, part};
use arcstr::{ArcStr, Substr, format_arcstr};
use std::alloc::AllocGlobal;
use std::collections::{BTreeMap, HashMap};
use std::process::Abort;
use std::test::Fail;

/// The length of the long text.
const LONG: usize = 20_000_000;

/// Where its last comma stands.
const LAST: usize = LONG - 7;

/// Returns a space, a field of one letter, a field of many digits, a field of five letters and a
/// line end.
fn long_text(rt: &(impl Abort + AllocGlobal)) -> ArcStr {
    let digits = ArcStr::repeat(rt.alloc(), "0123456789", LONG / 10 - 1).expect(rt, "no memory");
    format_arcstr!(rt.alloc(); " a,{digits},abcde\n").expect(rt, "no memory")
}

/// Asserts that a long text was made, in a block of its own.
fn check_long<E: Drop>(rt: &impl Abort, made: Result<ArcStr, E>) {
    let text = made.ok().expect(rt, "no text");
    assert_eq!(rt; (text.len(), count(&text)), (LONG, Some(1)));
}

#[test]
fn a_long_text_is_made(ref rt: HostRuntime) -> Result<(), Fail> {
    let (alloc, text) = (rt.alloc(), &long_text(rt));
    let (bytes, slice) = (text.as_bytes(), &part(rt, text, ..));
    check_long(rt, ArcStr::from_str(alloc, text.as_str()));
    check_long(rt, ArcStr::try_alloc(alloc, text.as_str()));
    check_long(rt, ArcStr::from_utf8(alloc, bytes));
    check_long(
        rt,
        ArcStr::init_with(alloc, text.len(), |room| room.fill(b'7')),
    );
    check_long(rt, ArcStr::try_repeat(alloc, "0123456789", LONG / 10));
    check_long(rt, ArcStr::repeat(alloc, text.as_str(), 1));
    check_long(rt, ArcStr::join(alloc, &[text.as_str(), ""], ""));
    check_long(
        rt,
        ArcStr::try_from(String::from_str(alloc, text.as_str())?),
    );
    check_long(rt, ArcStr::try_from(bytes.to_vec(alloc)?));
    check_long(rt, [text.clone(rt)].into_iter().collect::<ArcStr>(alloc));
    check_long(rt, [slice.clone(rt)].into_iter().collect::<ArcStr>(alloc));
    check_long(rt, slice.to_arc_str(alloc));
    check_long(rt, ArcStr::from_json(alloc, &text.to_json(alloc)?));
    assert_eq!(rt;
        Substr::from_json(alloc, &slice.to_json(alloc)?)?.len(),
        LONG
    );
    assert_eq!(rt; Substr::from_str(alloc, text.as_str())?.len(), LONG);
    assert_eq!(rt;
        (text.to_string(alloc)?.len(), slice.to_string(alloc)?.len()),
        (LONG, LONG)
    );
    assert_eq!(rt; count(text), Some(2));
    Ok(())
}

/// The slices of a long text or of all of it.
macro_rules! check_slices {
    ($rt:expr, $it:expr) => {{
        let (rt, it) = ($rt, $it);
        for (slice, range) in [
            (it.substr(rt, 3..LONG)?, 3..LONG),
            (it.substr_using(rt, |_| 1..LAST)?, 1..LAST),
            (it.try_substr_using(rt, |_| 1..LAST)?, 1..LAST),
            (it.try_substr_from(rt, it.view().trim()).ok_or("not found")?, 1..LONG - 1),
            (it.substr_trim(rt), 1..LONG - 1),
            (it.substr_trim_start(rt), 1..LONG),
            (it.substr_trim_end(rt), 0..LONG - 1),
            (it.substr_split_once(rt, ',').ok_or("no comma")?.1, 3..LONG),
            (it.substr_rsplit_once(rt, ',').ok_or("no comma")?.0, 0..LAST),
            (it.substr_split_at(rt, LAST)?.1, LAST..LONG),
            (it.substr_strip_prefix(rt, " a").ok_or("no prefix")?, 2..LONG),
            (it.substr_strip_suffix(rt, '\n').ok_or("no suffix")?, 0..LONG - 1),
            (it.substr_split(rt, rt.alloc(), ',')?.swap_remove(1), 3..LAST),
            (it.substr_lines(rt, rt.alloc())?.swap_remove(0), 0..LONG - 1),
            (it.substr_split_whitespace(rt, rt.alloc())?.swap_remove(0), 1..LONG - 1),
        ] {
            assert_eq!(rt; slice.range(), range);
        }
    }};
}

#[test]
fn a_long_text_is_sliced(ref rt: HostRuntime) -> Result<(), Fail> {
    let text = &long_text(rt);
    check_slices!(rt, text);
    check_slices!(rt, &part(rt, text, ..));
    Ok(())
}

#[test]
fn a_long_text_is_compared_and_looked_up(ref rt: HostRuntime) -> Result<(), Fail> {
    let text = &long_text(rt);
    let (copy, slice) = (&made(rt, text.as_str()), &part(rt, text, ..));
    assert!(rt; text == copy && *slice > part(rt, copy, ..LAST));
    let (mut texts, mut slices) = (HashMap::new(rt.alloc()), BTreeMap::new(rt.alloc()));
    texts.insert(copy.clone(rt), 1)?;
    slices.insert(slice.clone(rt), 2)?;
    assert_eq!(rt; (texts.get(slice), slices.get(copy)), (Some(&1), Some(&2)));
    Ok(())
}

/// How often the text of a long list has a comma and a line.
const LINES: usize = 200_000;

#[test]
fn a_text_of_200_000_lines_is_listed(ref rt: HostRuntime) -> Result<(), Fail> {
    let alloc = rt.alloc();
    let text = &ArcStr::repeat(alloc, "a,\n", LINES)?;
    let slice = &part(rt, text, 3..);
    let lists = [
        (text.substr_split(rt, alloc, ',')?, LINES + 1),
        (text.substr_lines(rt, alloc)?, LINES),
        (text.substr_split_whitespace(rt, alloc)?, LINES),
        (slice.substr_split(rt, alloc, ',')?, LINES),
        (slice.substr_lines(rt, alloc)?, LINES - 1),
        (slice.substr_split_whitespace(rt, alloc)?, LINES - 1),
    ];
    assert_eq!(rt; count(text), Some(2 + 6 * LINES - 1));
    for (list, len) in lists {
        assert_eq!(rt; list.len(), len);
    }
    assert_eq!(rt; count(text), Some(2));
    Ok(())
}
