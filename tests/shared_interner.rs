//! A shared interner, by one thread and by eight.
use crate::steps::{all_arrive, count};
use arcintern::{InternFault, SharedInterner, Symbol};
use arcstr::{ArcStr, TextFault};
use std::alloc::{AllocError, AllocGlobal, Global};
use std::process::Abort;
use std::sync::Wait;
use std::sync::atomic::AtomicUsize;
use std::test::Fail;
use std::thread;
use std::thread::Threads;

/// How many threads intern at once.
const THREADS: usize = 8;

/// How many words each thread interns.
const WORDS: usize = 2_000;

/// How many words the threads intern in the same order.
const TOGETHER: usize = 40;

/// The word of a number.
fn word_of(alloc: Global, number: usize) -> Result<String, AllocError> {
    format!(in alloc; "word {number}")
}

/// Interns the words from the number `first` on and then those before it, and answers their symbols
/// in the order of the words.
fn intern_words(
    rt: &impl Wait,
    alloc: Global,
    interner: &SharedInterner,
    first: usize,
) -> Result<Vec<Symbol>, InternFault> {
    let mut symbols = Vec::with_capacity(alloc, WORDS)?;
    for number in first..WORDS {
        interner.intern(rt, &word_of(alloc, number)?)?;
    }
    for number in 0..WORDS {
        symbols.push(interner.intern(rt, &word_of(alloc, number)?)?.number())?;
    }
    Ok(symbols)
}

/// Asserts that the numbers of the texts are 0, 1, 2 and so on, so a list by these indexes has a
/// place for each text, which is in a block that is the interner's alone.
fn check_dense(rt: &impl Abort, interner: &SharedInterner, len: usize) {
    let mut number = 0_usize;
    for (symbol, text) in interner.iter() {
        assert_eq!(rt; (symbol.number().index(), count(text)), (number, Some(1)));
        number += 1;
    }
    assert_eq!(rt; (number, interner.len()), (len, len));
}

/// Asserts that an interner finds each word of a list of symbols, and gives the next number to a
/// new one.
fn check_found(
    rt: &(impl Abort + AllocGlobal + Wait),
    interner: &SharedInterner,
    symbols: &[Symbol],
) -> Result<(), InternFault> {
    for (number, symbol) in symbols.iter().enumerate() {
        let found = interner.get(&word_of(rt.alloc(), number)?);
        assert!(rt; found.map(|symbol| symbol.number()) == Some(*symbol));
    }
    assert_eq!(rt;
        interner.intern(rt, "a new word")?.number().index(),
        symbols.len()
    );
    Ok(())
}

/// Interns the same words by all threads at once, each from another word on.
fn check_threads<R: Abort + AllocGlobal + Threads + Wait + Sync>(
    rt: &R,
    shards: usize,
) -> Result<(), InternFault> {
    let alloc = rt.alloc();
    let interner = SharedInterner::new(alloc, shards)?;
    let work = |index: usize| intern_words(rt, alloc, &interner, index * WORDS / THREADS);
    let mut wanted = Vec::new(alloc);
    for list in thread::map_indices(rt, alloc, THREADS, &work).expect(rt, "no threads") {
        let symbols = list?;
        assert!(rt; wanted.is_empty() || symbols == wanted);
        wanted = symbols;
    }
    assert_eq!(rt; wanted.len(), WORDS);
    for (number, symbol) in wanted.iter().enumerate() {
        let symbol = interner.symbol_at(*symbol).expect(rt, "no text");
        assert_eq!(rt;
            interner.text(&symbol).as_str(),
            word_of(alloc, number)?.as_str()
        );
    }
    check_dense(rt, &interner, WORDS);
    check_found(rt, &interner, wanted.as_slice())
}

#[test]
fn threads_agree_and_their_words_keep_their_numbers(ref rt: HostRuntime) -> Result<(), Fail> {
    for shards in [1, 8, 64] {
        check_threads(rt, shards)?;
    }
    Ok(())
}

/// Asserts that eight threads which intern one word at the same time get one number.
fn check_one_number<R: Abort + AllocGlobal + Threads + Wait + Sync>(
    rt: &R,
) -> Result<(), InternFault> {
    let (alloc, gate) = (rt.alloc(), &AtomicUsize::new(0));
    let interner = &SharedInterner::new(alloc, 2)?;
    let work = |_: usize| {
        all_arrive(gate, THREADS);
        let mut symbols = Vec::new(alloc);
        for number in 0..TOGETHER {
            symbols.push(interner.intern(rt, &word_of(alloc, number)?)?.number())?;
        }
        Ok::<_, InternFault>(symbols)
    };
    let mut wanted = Vec::new(alloc);
    for list in thread::map_indices(rt, alloc, THREADS, &work).expect(rt, "no threads") {
        let symbols = list?;
        assert!(rt; wanted.is_empty() || symbols == wanted);
        wanted = symbols;
    }
    assert_eq!(rt; wanted.len(), TOGETHER);
    check_dense(rt, interner, TOGETHER);
    Ok(())
}

#[test]
fn threads_at_one_word_agree(ref rt: HostRuntime) -> Result<(), Fail> {
    for _ in 0..200 {
        check_one_number(rt)?;
    }
    Ok(())
}

/// As the last worker, interns more words. As another, looks for known words until they are all
/// there, and answers whether each was found.
fn add_or_find(
    rt: &impl Wait,
    alloc: Global,
    interner: &SharedInterner,
    worker: usize,
) -> Result<bool, InternFault> {
    if worker == THREADS - 1 {
        for number in TOGETHER..2 * WORDS {
            interner.intern(rt, &word_of(alloc, number)?)?;
        }
    }
    for turn in 0..2_000_000_usize {
        if interner.len() == 2 * WORDS {
            break;
        }
        if interner.get(&word_of(alloc, turn % TOGETHER)?).is_none() {
            return Ok(false);
        }
    }
    Ok(true)
}

#[test]
fn known_words_are_found_while_tables_grow(ref rt: HostRuntime) -> Result<(), Fail> {
    let alloc = rt.alloc();
    let interner = &SharedInterner::new(alloc, 1)?;
    for number in 0..TOGETHER {
        interner.intern(rt, &word_of(alloc, number)?)?;
    }
    let work = |worker: usize| add_or_find(rt, alloc, interner, worker);
    for found in thread::map_indices(rt, alloc, THREADS, &work)? {
        assert!(rt; found?);
    }
    check_dense(rt, interner, 2 * WORDS);
    Ok(())
}

/// Waits until all threads have arrived, and then interns texts of this thread's own. Each text
/// stays alive.
fn intern_own_texts(
    rt: &impl Wait,
    alloc: Global,
    interner: &SharedInterner,
    arrived: &AtomicUsize,
) -> Result<Vec<ArcStr>, InternFault> {
    let mut texts = Vec::new(alloc);
    for number in 0..TOGETHER {
        let word = word_of(alloc, number)?;
        texts.push(ArcStr::from_str(alloc, &word).map_err(|_: TextFault| InternFault::Memory)?)?;
    }
    all_arrive(arrived, THREADS);
    for text in &texts {
        interner.intern_arc(rt, text)?;
    }
    Ok(texts)
}

/// No text has another handle once its interner is gone: neither one that the interner kept, nor
/// one for a word that another thread added first.
#[test]
fn texts_of_threads_end_with_their_interner(ref rt: HostRuntime) -> Result<(), Fail> {
    let alloc = rt.alloc();
    for _ in 0..200 {
        let (interner, gate) = (SharedInterner::new(alloc, 2)?, &AtomicUsize::new(0));
        let work = |_: usize| intern_own_texts(rt, alloc, &interner, gate);
        let lists = thread::map_indices(rt, alloc, THREADS, &work)?;
        assert_eq!(rt; interner.len(), TOGETHER);
        drop(interner);
        for list in lists {
            assert!(rt; list?.iter().all(|text| count(text) == Some(1)));
        }
    }
    Ok(())
}

/// More words than the first rows of the list have.
#[test]
fn words_are_numbered_as_they_come(ref rt: HostRuntime) -> Result<(), Fail> {
    let alloc = rt.alloc();
    for (shards, room) in [(1, 0), (8, 0), (8, WORDS), (37, 0), (64, 0)] {
        let interner = SharedInterner::with_capacity(alloc, shards, room)?;
        let mut symbols = Vec::new(alloc);
        for number in 0..5 * WORDS {
            symbols.push(interner.intern(rt, &word_of(alloc, number)?)?.number())?;
            assert_eq!(rt; symbols[number].index(), number);
        }
        check_dense(rt, &interner, 5 * WORDS);
        check_found(rt, &interner, symbols.as_slice())?;
    }
    let interner = SharedInterner::new(alloc, 8)?;
    assert!(rt; interner.is_empty() && interner.get("").is_none());
    Ok(())
}
