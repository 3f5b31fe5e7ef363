//! Interners, word lists and symbol maps: many words, words of one hash, long words, JSON, and the
//! counts of the texts that they keep.
use crate::steps::{count, made};
use arcintern::{Interner, SharedInterner, Symbol, SymbolMap, WordList};
use arcstr::{ArcStr, literal};
use serde_json::Error;
use std::alloc::AllocGlobal;
use std::hash::{BuildHasher, Hasher};
use std::process::Abort;
use std::test::Fail;

/// How many words a large interner gets: one less than a power of two, the worst number for a table
/// that leaves too few places empty.
const WORDS: usize = (1 << 16) - 1;

/// How many words are looked up that a large interner does not have.
const ABSENT: usize = 50_000;

/// The length of a word, in bytes.
const WIDTH: usize = 12;

/// Returns pseudorandom letters. Each twelve in a row are a word that stands nowhere else in them.
fn letters(rt: &(impl Abort + AllocGlobal)) -> String {
    let (mut letters, mut state) = (String::new(rt.alloc()), 1u64);
    for _ in 0..WORDS + ABSENT + WIDTH {
        state = state
            .wrapping_mul(6_364_136_223_846_793_005)
            .wrapping_add(1_442_695_040_888_963_407);
        let letter = (b'a' + ((state >> 60) % 16) as u8) as char;
        letters.push(letter).expect(rt, "no memory");
    }
    letters
}

#[test]
fn many_words_are_numbered_as_they_come(ref rt: HostRuntime) -> Result<(), Fail> {
    let letters = &letters(rt);
    let word = |number: usize| letters.get(number..number + WIDTH).expect(rt, "no word");
    let (mut interner, mut list) = (Interner::new(rt.alloc()), WordList::new(rt.alloc()));
    let shared = SharedInterner::new(rt.alloc(), 1)?;
    for number in 0..WORDS {
        assert_eq!(rt; interner.intern(word(number))?.index(), number);
        assert_eq!(rt; list.intern(word(number))?.index(), number);
        assert_eq!(rt; shared.intern(rt, word(number))?.number().index(), number);
    }
    for word in (WORDS..WORDS + ABSENT).map(word) {
        assert!(rt; interner.get(word).is_none() && list.get(word).is_none());
        assert!(rt; shared.get(word).is_none());
    }
    for number in 0..WORDS {
        let (symbol, listed) = (interner.intern(word(number))?, list.intern(word(number))?);
        assert_eq!(rt; (symbol.index(), listed.index()), (number, number));
        let text = interner.resolve(symbol).ok_or("no text")?;
        assert_eq!(rt; (text.as_str(), count(text)), (word(number), Some(1)));
        assert_eq!(rt; list.resolve(listed), Some(word(number)));
        let symbol = shared.get(word(number)).ok_or("not found")?;
        assert_eq!(rt; symbol.number().index(), number);
        assert!(rt; shared.symbol_at(symbol.number()).is_some());
    }
    assert_eq!(rt;
        (interner.len(), list.len(), shared.len()),
        (WORDS, WORDS, WORDS)
    );
    let last = list.symbol_at(WORDS - 1).ok_or("no symbol")?;
    let mut map: SymbolMap<u64> = SymbolMap::new(rt.alloc());
    assert_eq!(rt; *map.or_insert(last, 7)?, 7);
    assert!(rt; map.iter().last() == Some((last, &7)));
    Ok(())
}

/// Gives each word the hash `hash`.
#[derive(Clone, Copy)]
struct OneHash {
    hash: u64,
}

impl Hasher for OneHash {
    ghost write = { λ hasher _. hasher };

    ghost finish = { λ hasher. hasher.hash };

    fn finish(&self) -> u64 {
        self.hash
    }

    fn write(&mut self, _bytes: &[u8]) {}
}

impl BuildHasher for OneHash {
    type Hasher = OneHash;

    ghost build_hasher = { λ hasher. hasher };

    fn build_hasher(&self) -> OneHash {
        *self
    }
}

/// With the second hash, a search for a word begins at the last slot of a table of any length, and
/// passes its end.
#[test]
fn a_hundred_words_of_one_hash_are_told_apart(ref rt: HostRuntime) -> Result<(), Fail> {
    let alloc = rt.alloc();
    let mut words = Vec::new(alloc);
    for number in 0..100 {
        words.push(format!(in alloc; "{number}")?)?;
    }
    for hash in [7, 4_294_967_295] {
        let mut interner = Interner::with_hasher(alloc, OneHash { hash });
        let mut list = WordList::with_hasher(alloc, OneHash { hash });
        let shared = SharedInterner::with_hasher(alloc, 1, OneHash { hash })?;
        for (number, word) in words.iter().chain(&words).enumerate() {
            let symbol = shared.intern(rt, word)?;
            let numbers = (interner.intern(word)?.index(), list.intern(word)?.index());
            assert_eq!(rt; numbers, (number % 100, number % 100));
            assert_eq!(rt;
                (symbol.number().index(), shared.text(&symbol).as_str()),
                (number % 100, word.as_str())
            );
        }
        for (number, word) in words.iter().enumerate() {
            let found = shared.get(word).map(|symbol| symbol.number());
            for symbol in [interner.get(word), list.get(word), found] {
                assert_eq!(rt; symbol.map(|symbol| symbol.index()), Some(number));
            }
        }
        assert!(rt; interner.get("").is_none() && list.get("1 ").is_none());
        assert!(rt; shared.get("").is_none() && shared.len() == 100);
    }
    Ok(())
}

/// A word of 17,000,000 bytes.
#[test]
fn a_long_word_is_found_by_each_interner(ref rt: HostRuntime) -> Result<(), Fail> {
    let (alloc, long) = (
        rt.alloc(),
        &ArcStr::repeat(rt.alloc(), "foobar, ", 2_125_000)?,
    );
    assert_eq!(rt; long.len(), 17_000_000);
    let (mut words, mut interner) = (WordList::new(alloc), Interner::new(alloc));
    words.intern("foo")?;
    words.intern(long.as_str())?;
    assert!(rt;
        words
            .get(long.as_str())
            .is_some_and(|symbol| symbol.index() == 1)
    );
    interner.intern(long.as_str())?;
    assert!(rt; interner.get(long.as_str()).is_some());
    let shared = SharedInterner::new(alloc, 2)?;
    shared.intern(rt, long.as_str())?;
    assert!(rt; shared.get(long.as_str()).is_some() && count(long) == Some(1));
    Ok(())
}

/// A known text is not kept twice, a new one is kept as a clone, and a literal stays a literal.
#[test]
fn an_interner_keeps_one_handle_of_a_text(ref rt: HostRuntime) -> Result<(), Fail> {
    let (alloc, text, other) = (rt.alloc(), &made(rt, "foobar"), &made(rt, "foobar"));
    let mut interner = Interner::new(alloc);
    let shared = SharedInterner::new(alloc, 2)?;
    let first = interner.intern_arc(rt, text)?;
    for text in [text, other] {
        assert!(rt; interner.intern_arc(rt, text)? == first);
        assert_eq!(rt; shared.intern_arc(rt, text)?.number().index(), 0);
    }
    assert!(rt; interner.intern("foobar")? == first && shared.get("foobar").is_some());
    assert_eq!(rt; (count(text), count(other)), (Some(3), Some(1)));
    assert!(rt; ArcStr::is_static(shared.text(&shared.intern_arc(rt, &literal!("foo"))?)));
    assert!(rt; ArcStr::is_static(shared.text(&shared.intern(rt, "")?)));
    let symbol = interner.intern("")?;
    assert!(rt; ArcStr::is_static(&interner[symbol]));
    drop(shared);
    assert_eq!(rt; count(text), Some(2));
    drop(interner);
    assert_eq!(rt; count(text), Some(1));
    Ok(())
}

/// The symbol of a number.
fn symbol_of(rt: &(impl Abort + AllocGlobal), number: usize) -> Symbol {
    let mut words = WordList::new(rt.alloc());
    for before in 0..number + 1 {
        let word = format!(in rt.alloc(); "word {before}").expect(rt, "no memory");
        words.intern(&word).expect(rt, "refused");
    }
    words.symbol_at(number).expect(rt, "no symbol")
}

#[test]
fn a_symbol_map_grows_where_a_value_is_stored(ref rt: HostRuntime) -> Result<(), Fail> {
    let mut map: SymbolMap<u64> = SymbolMap::new(rt.alloc());
    let (third, tenth) = (symbol_of(rt, 2), symbol_of(rt, 9));
    assert!(rt; map.insert(tenth, 10)?.is_none() && map.insert(third, 3)?.is_none());
    assert_eq!(rt; map.insert(tenth, 11)?, Some(10));
    *map.or_insert(third, 7)? = 4;
    *map.get_mut(tenth).ok_or("no value")? = 12;
    assert!(rt; map.get_mut(symbol_of(rt, 3)).is_none() && map.get(symbol_of(rt, 100)).is_none());
    let mut pairs = map.iter();
    assert!(rt; pairs.next() == Some((third, &4)) && pairs.next() == Some((tenth, &12)));
    assert!(rt; pairs.next().is_none());
    Ok(())
}

#[test]
fn a_symbol_map_keeps_one_handle_of_each_value(ref rt: HostRuntime) -> Result<(), Fail> {
    let (first, second, symbol) = (&made(rt, "foo"), &made(rt, "bar"), symbol_of(rt, 3));
    let mut map: SymbolMap<ArcStr> = SymbolMap::new(rt.alloc());
    assert!(rt; map.or_insert(symbol, first.clone(rt))?.eq_str("foo"));
    assert!(rt; map.or_insert(symbol, second.clone(rt))?.eq_str("foo"));
    assert_eq!(rt; (count(first), count(second)), (Some(2), Some(1)));
    assert!(rt; map.insert(symbol, second.clone(rt))?.is_some());
    assert_eq!(rt; (count(first), count(second)), (Some(1), Some(2)));
    drop(map);
    assert_eq!(rt; count(second), Some(1));
    Ok(())
}

/// How many texts a large list of JSON has.
const MANY: usize = 10_000;

#[test]
fn many_texts_are_written_and_read_with_their_numbers(ref rt: HostRuntime) -> Result<(), Fail> {
    let (alloc, mut words) = (rt.alloc(), WordList::new(rt.alloc()));
    for number in 0..MANY {
        words.intern(&format!(in alloc; "\"é {number}")?)?;
    }
    let json = serde_json::to_string(alloc, &words)?;
    let mut interner: Interner = serde_json::from_str(alloc, json.as_str())?;
    let mut list: WordList = serde_json::from_str(alloc, json.as_str())?;
    for (symbol, text) in words.pairs() {
        assert!(rt; interner.get(text) == Some(symbol) && list.get(text) == Some(symbol));
        assert_eq!(rt; count(&interner[symbol]), Some(1));
    }
    assert_eq!(rt;
        (interner.intern("new")?.index(), list.intern("new")?.index()),
        (MANY, MANY)
    );
    Ok(())
}

#[test]
fn other_lists_are_refused(ref rt: HostRuntime) -> Result<(), Fail> {
    let alloc = rt.alloc();
    let twice = "[\"foo\", \"bar\", \"f\\u006fo\"]";
    for json in [twice, "\"foo\"", "[\"foo\", 12]", "[\"foo\"", "{}", "null"] {
        let read: Result<Interner, Error> = serde_json::from_str(alloc, json);
        let (error, read): (_, Result<WordList, Error>) = (
            read.err().ok_or("read")?,
            serde_json::from_str(alloc, json),
        );
        let other = read.err().ok_or("read")?;
        let printed = format!(in alloc; "{error}")?;
        assert_eq!(rt; printed, format!(in alloc; "{other}")?);
        assert_eq!(rt;
            printed.as_str().starts_with("text comes twice"),
            json == twice
        );
    }
    Ok(())
}

#[test]
fn a_symbol_is_written_as_its_number(ref rt: HostRuntime) -> Result<(), Fail> {
    let interner: Interner = serde_json::from_str(rt.alloc(), "[\"foo\",\"\",\"é\"]")?;
    let symbols: [Option<Symbol>; 2] = [interner.get("é"), interner.get("foo")];
    let json = serde_json::to_string(rt.alloc(), &symbols)?;
    assert_eq!(rt; json.as_str(), "[2,0]");
    let printed = format!(in rt.alloc(); "{symbols:?}")?;
    assert_eq!(rt; printed.as_str(), "[Some(Symbol(2)), Some(Symbol(0))]");
    Ok(())
}
