//! The words of texts, and the workers that find them: their counts, their gates and many words.
use crate::steps::{all_arrive, count, made};
use arcbench_core::pool::callers;
use arcstr::{ArcStr, literal};
use arctokens::{token_list, tokens, tokens_all, tokens_all_with};
use std::alloc::{AllocError, Global};
use std::sync::atomic::{AtomicUsize, Ordering};
use std::test::Fail;

/// How many words a long text has.
const WORDS: usize = 250_000;

#[test]
fn words_are_handles_on_their_text(ref rt: HostRuntime) -> Result<(), Fail> {
    let (alloc, texts) = (
        rt.alloc(),
        [made(rt, "a b"), made(rt, "c d e"), made(rt, " ")],
    );
    let counts = || [count(&texts[0]), count(&texts[1]), count(&texts[2])];
    for workers in [1, 2, 3, 64] {
        let lists = tokens_all(rt, alloc, &texts, workers)?;
        assert_eq!(rt; counts(), [Some(3), Some(4), Some(1)]);
        drop(lists);
        assert_eq!(rt; counts(), [Some(1); 3]);
    }
    let words = tokens(rt, alloc, &texts[1])?;
    assert_eq!(rt; (words.len(), count(&texts[1])), (3, Some(4)));
    drop(words);
    // A list holds one handle, and a slice of it one more.
    let list = token_list(rt, alloc, &texts[1])?;
    let word = list.get(rt, 2).ok_or("no word")?;
    assert_eq!(rt; (word.as_str(), count(list.text())), ("e", Some(3)));
    assert!(rt; list.get(rt, 3).is_none() && list.as_str(0) == Some("c"));
    drop(list);
    assert_eq!(rt; (word.range(), count(&texts[1])), (4..5, Some(2)));
    let words = tokens(rt, alloc, &literal!("a b"))?;
    assert!(rt; words.iter().all(|word| ArcStr::is_static(word.parent())));
    Ok(())
}

#[test]
fn a_text_of_250_000_words_after_as_many_spaces(ref rt: HostRuntime) -> Result<(), Fail> {
    let (spaces, words) = (
        " ".repeat(rt.alloc(), WORDS)?,
        "ab ".repeat(rt.alloc(), WORDS)?,
    );
    let texts = [
        ArcStr::join(rt.alloc(), &[&spaces, &words], "")?,
        made(rt, "ab"),
    ];
    let words = tokens(rt, rt.alloc(), &texts[0])?;
    let last = words.last().ok_or("no word")?;
    assert_eq!(rt;
        (words.len(), last.as_str(), last.range()),
        (WORDS, "ab", 999_997..999_999)
    );
    let lists = tokens_all(rt, rt.alloc(), &texts, 2)?;
    assert_eq!(rt; (lists[0].len(), lists[1].len()), (WORDS, 1));
    assert_eq!(rt; count(&texts[0]), Some(1 + 2 * WORDS));
    let list = token_list(rt, rt.alloc(), &texts[0])?;
    assert_eq!(rt;
        (list.len(), list.range(WORDS - 1)),
        (WORDS, Some(999_997..999_999))
    );
    let long = &ArcStr::repeat(rt.alloc(), "foobar", 3_000_000)?;
    assert_eq!(rt; tokens(rt, rt.alloc(), long)?[0].range(), 0..18_000_000);
    Ok(())
}

/// The characters that are white space in Unicode.
const WHITE_SPACE: [char; 25] = [
    '\u{9}', '\u{a}', '\u{b}', '\u{c}', '\u{d}', '\u{20}', '\u{85}', '\u{a0}', '\u{1680}',
    '\u{2000}', '\u{2001}', '\u{2002}', '\u{2003}', '\u{2004}', '\u{2005}', '\u{2006}', '\u{2007}',
    '\u{2008}', '\u{2009}', '\u{200a}', '\u{2028}', '\u{2029}', '\u{202f}', '\u{205f}', '\u{3000}',
];

/// Characters next to those, and characters that look like white space. None of these is white
/// space.
const OTHERS: [char; 14] = [
    '\u{8}', '\u{e}', '\u{1f}', '\u{21}', '\u{84}', '\u{86}', '\u{9f}', '\u{a1}', '\u{180e}',
    '\u{1fff}', '\u{200b}', '\u{2060}', '\u{3001}', '\u{feff}',
];

/// Each white space ends a word, at each place of a long word, and no other character does.
#[test]
fn white_space_ends_a_word(ref rt: HostRuntime) -> Result<(), Fail> {
    for (between, words) in WHITE_SPACE
        .map(|it| (it, 2))
        .into_iter()
        .chain(OTHERS.map(|it| (it, 1)))
    {
        for place in 1..39 {
            let (before, after) = (
                "x".repeat(rt.alloc(), place)?,
                "x".repeat(rt.alloc(), 40 - place)?,
            );
            let text = &ArcStr::join(
                rt.alloc(),
                &[before.as_str(), after.as_str()],
                between.encode_utf8(&mut [0; 4]),
            )?;
            let found = tokens(rt, rt.alloc(), text)?;
            assert_eq!(rt;
                (found.len(), found[0].range().start),
                (words, 0),
                "{between:?} {place}"
            );
            let end = if words == 2 { place } else { text.len() };
            assert_eq!(rt; found[0].range().end, end);
        }
    }
    Ok(())
}

/// A gate at which each worker waits until all workers have arrived. It counts those that saw all
/// arrive, and how many handles on its text the first worker saw then.
#[derive(Drop)]
struct Meeting {
    text: ArcStr,
    workers: usize,
    arrived: AtomicUsize,
    met: AtomicUsize,
    handles: AtomicUsize,
    passes: Vec<AtomicUsize>,
}

impl Meeting {
    fn new(passes: Vec<AtomicUsize>, text: ArcStr) -> Meeting {
        Meeting {
            text,
            workers: passes.len(),
            arrived: AtomicUsize::new(0),
            met: AtomicUsize::new(0),
            handles: AtomicUsize::new(0),
            passes,
        }
    }

    fn meet(&self, worker: usize) {
        if let Some(passes) = self.passes.get(worker) {
            passes.fetch_add(1, Ordering::SeqCst);
        }
        if all_arrive(&self.arrived, self.workers) {
            self.met.fetch_add(1, Ordering::SeqCst);
        }
        if worker == 0 {
            self.handles
                .store(count(&self.text).unwrap_or(0), Ordering::SeqCst);
        }
    }

    /// Whether all workers met, each passed once, and the first then saw so many handles.
    fn went_well(&self, handles: usize) -> bool {
        self.met.load(Ordering::SeqCst) == self.workers
            && self.handles.load(Ordering::SeqCst) == handles
            && self
                .passes
                .iter()
                .all(|passes| passes.load(Ordering::SeqCst) == 1)
    }
}

impl arctokens::Gate for Meeting {
    fn pass(&self, worker: usize) {
        self.meet(worker)
    }
}

impl arcbench_core::pool::Gate for Meeting {
    fn pass(&self, worker: usize) {
        self.meet(worker)
    }
}

/// Returns a gate of so many workers.
fn meeting(alloc: Global, text: ArcStr, workers: usize) -> Result<Meeting, AllocError> {
    let mut passes = Vec::new(alloc);
    for _ in 0..workers {
        passes.push(AtomicUsize::new(0))?;
    }
    Ok(Meeting::new(passes, text))
}

/// All workers run at once. Each passes the gate once, before its first text.
#[test]
fn all_workers_run_at_once(ref rt: HostRuntime) -> Result<(), Fail> {
    let texts = [made(rt, "a b"), made(rt, "")];
    for workers in [1, 2, 3, 16, 64] {
        let gate = meeting(rt.alloc(), texts[0].clone(rt), workers)?;
        let lists = tokens_all_with(rt, rt.alloc(), &texts, workers, &gate)?;
        assert_eq!(rt; (lists.len(), lists[0].len(), lists[1].len()), (2, 2, 0));
        assert!(rt; gate.went_well(2), "{workers} workers");
    }
    Ok(())
}

/// All callers run at once. Each passes its gate once, after its clone, and hands the clone back.
#[test]
fn all_callers_run_at_once(ref rt: HostRuntime) -> Result<(), Fail> {
    let text = &made(rt, "foobar");
    for workers in [1, 2, 3, 16, 64] {
        let gate = meeting(rt.alloc(), text.clone(rt), workers)?;
        let handles = callers(rt, rt.alloc(), text, workers, &gate)?;
        assert!(rt; gate.went_well(2 + workers), "{workers} workers");
        drop(gate);
        assert_eq!(rt; (handles.len(), count(text)), (workers, Some(1 + workers)));
        drop(handles);
        assert_eq!(rt; count(text), Some(1));
    }
    Ok(())
}
