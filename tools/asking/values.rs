//! Texts as values: order, hashes, keys, output, `Cow` and JSON.

use crate::asked::{Asked, Machine, Pair, piece, same};
use crate::memory::takes;
use anyhow::{Context, Result};
use arcstr::{ArcStr, JsonFault, StrView, Substr, format_arcstr, literal};
use serde_json::Value;
use std::alloc::Global;
use std::borrow::CowStr;
use std::collections::{BTreeMap, HashMap, HashSet};
use std::fmt::{Debug, Display};
use std::hash::{DefaultHasher, Hash, Hasher};

/// A text that is at most this long may be leaked.
const LEAKED: usize = 99;

pub(crate) fn hash_of<T: Hash>(value: &T) -> u64 {
    let mut state = DefaultHasher::new();
    value.hash(&mut state);
    state.finish()
}

/// Two texts that often begin alike, and two slices of them, one behind a character.
/// If texts are planted, the first has one character more for the libraries than for std.
pub(crate) fn orders<R: Machine>(asked: &mut Asked<'_, R>, planted: &str) -> Result<()> {
    let (rt, alloc, one) = (asked.rt, asked.alloc, asked.text()?);
    let (other, before) = (asked.text_like(one.as_str())?, asked.character());
    let (one, other) = (one.as_str(), other.as_str());
    let behind = format!(in alloc; "{before}{other}")?;
    let (a, b) = (format_arcstr!(alloc; "{one}{planted}")?, ArcStr::from_str(alloc, other)?);
    let (c, d) = (Substr::full(a.clone(rt)), ArcStr::from_str(alloc, behind.as_str())?);
    let d = d.substr(rt, before.len_utf8()..behind.len())?;
    let (is_equal, order) = (one == other, one.cmp(other));
    same!(asked; (a == b, a.cmp(&b), a.partial_cmp(&b)), (is_equal, order, Some(order)));
    same!(asked; (c == d, c.cmp(&d), c.partial_cmp(&d)), (is_equal, order, Some(order)));
    same!(asked; (b.cmp(&a), d.cmp(&c), c < d), (other.cmp(one), other.cmp(one), one < other));
    same!(asked; (a.eq_str(other), c.eq_str(other)), (is_equal, is_equal));
    same!(asked; (a.eq_str(one), d.eq_str(other)), (true, true));
    same!(asked; (hash_of(&a), hash_of(&c)), (hash_of(&one), hash_of(&one)));
    same!(asked; (hash_of(&d), hash_of(&(d, 7u8))), (hash_of(&other), hash_of(&(other, 7u8))));
    if one.len().max(other.len()) <= LEAKED {
        let (a, b) = (asked.leak(&a), asked.leak(&b));
        same!(asked; (a.cmp(&b), a == b, a.is_static()), (order, is_equal, true));
    }
    Ok(())
}

/// Maps and sets with keys of each type, looked up by a `&str` and by the other type.
pub(crate) fn keys<R: Machine>(asked: &mut Asked<'_, R>) -> Result<()> {
    let (alloc, mut key) = (asked.alloc, asked.text()?);
    let mut texts: HashMap<ArcStr, usize> = HashMap::new(alloc);
    let mut slices: BTreeMap<Substr, usize> = BTreeMap::new(alloc);
    let mut set: HashSet<Substr> = HashSet::new(alloc);
    let mut wanted: BTreeMap<String, usize> = BTreeMap::new(alloc);
    for number in 0..asked.below(9) {
        key = asked.text_like(key.as_str())?;
        let text = ArcStr::from_str(alloc, key.as_str())?;
        let slice = Substr::from_str(alloc, key.as_str())?;
        let old = wanted.insert(String::from_str(alloc, key.as_str())?, number)?;
        same!(asked; set.insert(slice.clone(asked.rt))?, old.is_none());
        same!(asked; (texts.insert(text, number)?, slices.insert(slice, number)?), (old, old));
    }
    for _ in 0..3 {
        key = asked.text_like(key.as_str())?;
        let word = key.as_str();
        let (text, slice) = (ArcStr::from_str(alloc, word)?, Substr::from_str(alloc, word)?);
        let known = wanted.get(word).copied();
        same!(asked; (texts.get(word).copied(), texts.get(&slice).copied()), (known, known));
        same!(asked; (slices.get(word).copied(), slices.get(&text).copied()), (known, known));
        let is_known = known.is_some();
        same!(asked; (set.contains(word), set.contains(&text)), (is_known, is_known));
    }
    let mut found = slices.iter();
    for (word, number) in wanted.iter() {
        let next = found.next().map(|(key, number)| (key.as_str(), *number));
        same!(asked; next, Some((word.as_str(), *number)));
    }
    let len = wanted.len();
    same!(asked; (texts.len(), slices.len(), set.len()), (len, len, len));
    Ok(())
}

fn shown(alloc: Global, it: &(impl Display + Debug), width: usize, most: usize) -> Result<String> {
    let wide = format!(in alloc; "{it:>width$}|{it:*^width$.most$}|{it:é<width$}|{it:.most$}")?;
    Ok(format!(in alloc; "{it}|{wide}|{it:?}|{:?}", (Some(it), 1))?)
}

/// The output of a text, a slice, a permanent text and a view.
pub(crate) fn output<R: Machine>(asked: &mut Asked<'_, R>) -> Result<()> {
    let pair = Pair::random(asked)?;
    let (alloc, width, most) = (asked.alloc, asked.below(20), asked.below(12));
    let (text, own) = (pair.text.as_str(), pair.own());
    let wanted = shown(alloc, &text, width, most)?;
    same!(asked; shown(alloc, &pair.whole, width, most)?, wanted);
    same!(asked; shown(alloc, &pair.slice, width, most)?, shown(alloc, &own, width, most)?);
    if text.len() <= LEAKED {
        let kept = asked.leak(&pair.whole);
        same!(asked; shown(alloc, &kept, width, most)?, wanted);
    }
    let (view, wanted) = (StrView::whole(own), format!(in alloc; "{own:>width$.most$}")?);
    same!(asked; format!(in alloc; "{view:>width$.most$}")?, wanted);
    Ok(())
}

/// Whether a `Cow` is borrowed, and its text.
fn cow<'a>(cow: &'a CowStr<'_>) -> (bool, &'a str) {
    (matches!(cow, CowStr::Borrowed(_)), cow.as_str())
}

/// Copies of a text as a `Cow`, as JSON values and as JSON that serde writes and reads.
pub(crate) fn copies<R: Machine>(asked: &mut Asked<'_, R>) -> Result<()> {
    let pair = Pair::random(asked)?;
    let (rt, alloc, text, own) = (asked.rt, asked.alloc, pair.text.as_str(), pair.own());
    let (whole, slice) = (&pair.whole, &pair.slice);
    same!(asked; (cow(&whole.to_cow()), cow(&slice.to_cow())), ((true, text), (true, own)));
    // A call that is out of memory gives back its handle.
    match whole.clone(rt).into_cow(alloc) {
        Ok(copied) => same!(asked; cow(&copied), (text.is_empty(), text)),
        Err(back) => same!(asked; back.as_str(), text),
    }
    match slice.clone(rt).into_cow(alloc) {
        Ok(copied) => same!(asked; cow(&copied), (text.is_empty(), own)),
        Err(back) => same!(asked; piece(&back), piece(slice)),
    }
    let copied = takes!(asked; (0, 0), literal!("aé").into_cow(alloc)).ok().context("no literal")?;
    same!(asked; cow(&copied), (true, "aé"));
    let (value, part) = (whole.to_json(alloc)?, slice.to_json(alloc)?);
    same!(asked; (value.as_str(), part.as_str()), (Some(text), Some(own)));
    same!(asked; ArcStr::from_json(alloc, &value)?.as_str(), text);
    same!(asked; piece(&Substr::from_json(alloc, &part)?), (0, own));
    let fault = ArcStr::from_json(alloc, &Value::Null).err();
    same!(asked; (fault, fault.map(|it| it.number())), (Some(JsonFault::NotText), Some(1)));
    let (line, part) = (serde_json::to_string(alloc, &text)?, serde_json::to_string(alloc, &own)?);
    same!(asked; serde_json::to_string(alloc, whole)?, line);
    same!(asked; serde_json::to_string(alloc, slice)?, part);
    let read: ArcStr = serde_json::from_str(alloc, line.as_str())?;
    same!(asked; read.as_str(), text);
    let read: Substr = serde_json::from_str(alloc, part.as_str())?;
    same!(asked; piece(&read), (0, own));
    Ok(())
}
