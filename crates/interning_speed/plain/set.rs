//! A set that threads share, by std alone: 64 locked shards, each a `HashSet<Arc<str>>`. A text goes with its last atom.

use crate::say;
use crate::texts::Texts;
use std::collections::hash_map::RandomState;
use std::collections::{HashMap, HashSet};
use std::hash::BuildHasher;
use std::hint::black_box;
use std::sync::{Arc, Mutex, MutexGuard};
use std::thread;
use std::time::Instant;

const INLINE: [&str; 8] = ["a", "be", "div", "span", "table", "strong", "section", ""];
const DYNAMIC: [&str; 8] = [
    "background-color",
    "border-collapse",
    "font-family",
    "grid-template-columns",
    "justify-content",
    "letter-spacing",
    "transition-duration",
    "vertical-align",
];

struct Set {
    hasher: RandomState,
    shards: [Mutex<HashSet<Arc<str>>>; 64],
}

struct Atom<'s> {
    set: &'s Set,
    text: Arc<str>,
}

impl Set {
    fn new() -> Set {
        Set {
            hasher: RandomState::new(),
            shards: std::array::from_fn(|_| Mutex::default()),
        }
    }

    fn shard(&self, text: &str) -> MutexGuard<'_, HashSet<Arc<str>>> {
        let shard = self.hasher.hash_one(text) as usize % self.shards.len();
        self.shards[shard].lock().expect("no thread has panicked")
    }

    fn intern(&self, text: &str) -> Atom<'_> {
        let mut shard = self.shard(text);
        if let Some(text) = shard.get(text) {
            return Atom {
                set: self,
                text: text.clone(),
            };
        }
        let text: Arc<str> = text.into();
        shard.insert(text.clone());
        Atom { set: self, text }
    }

    fn len(&self) -> usize {
        self.shards
            .iter()
            .map(|shard| shard.lock().expect("no thread has panicked").len())
            .sum()
    }
}

impl Clone for Atom<'_> {
    fn clone(&self) -> Self {
        Atom {
            set: self.set,
            text: self.text.clone(),
        }
    }
}

impl PartialEq for Atom<'_> {
    fn eq(&self, other: &Self) -> bool {
        Arc::ptr_eq(&self.text, &other.text)
    }
}

impl Drop for Atom<'_> {
    fn drop(&mut self) {
        // Two are left: this one and the set's. Another thread may intern the text till the shard is locked.
        if Arc::strong_count(&self.text) == 2 {
            let mut shard = self.set.shard(&self.text);
            if Arc::strong_count(&self.text) == 2 {
                shard.remove(&*self.text);
            }
        }
    }
}

fn intern_all<'s>(set: &'s Set, texts: &[String]) -> Vec<Atom<'s>> {
    texts.iter().map(|text| set.intern(text)).collect()
}

fn intern_timed<'s>(set: &'s Set, name: &str, texts: &[String]) -> Vec<Atom<'s>> {
    let start = Instant::now();
    let atoms = intern_all(set, texts);
    say(name, texts.len(), atoms.len(), start.elapsed());
    atoms
}

fn clone_timed<'s>(atoms: &[Atom<'s>]) -> Vec<Atom<'s>> {
    let start = Instant::now();
    let clones = atoms.to_vec();
    say("clone", atoms.len(), clones.len(), start.elapsed());
    clones
}

fn drop_timed(set: &Set, name: &str, mut atoms: Vec<Atom>, is_last: bool) {
    let (calls, before, start) = (atoms.len(), set.len(), Instant::now());
    while let Some(atom) = atoms.pop() {
        drop(atom);
    }
    let time = start.elapsed();
    let gone = before - set.len();
    say(name, calls, if is_last { gone } else { calls - gone }, time);
}

pub fn live(texts: &Texts) {
    let set = &Set::new();
    let first = intern_timed(set, "intern of a new text", &texts.first);
    let again = intern_timed(set, "intern of a text that is there", &texts.again);
    let clones = clone_timed(&again);
    drop_timed(set, "drop of a clone", clones, false);
    drop(first);
    let newest = intern_timed(set, "intern of one more new text", &texts.more);
    drop_timed(set, "last drop, of the newest", newest, true);
    drop_timed(set, "last drop, of any", again, true);
}

fn compare_timed(name: &str, lefts: &[Atom], rights: &[Atom], is_equal: bool) {
    let (mut done, start) = (0, Instant::now());
    for (left, right) in lefts.iter().zip(rights) {
        done += usize::from((left == right) == is_equal);
    }
    say(name, rights.len(), done, start.elapsed());
}

fn compare_long(set: &Set, count: usize) {
    let text = "interned, ".repeat(1000);
    let lefts = vec![set.intern(&text); count];
    let rights = lefts.clone();
    compare_timed("== of one text of 10,000 bytes", &lefts, &rights, true);
}

/// In a map by where texts lie.
fn look_up_timed(atoms: &[Atom]) {
    let place = |atom: &Atom| Arc::as_ptr(&atom.text).cast::<u8>();
    let places: HashMap<*const u8, usize> = atoms.iter().map(place).zip(0..).collect();
    let start = Instant::now();
    let done = atoms
        .iter()
        .filter(|atom| places.contains_key(&place(atom)))
        .count();
    say("look-up in a map by words", atoms.len(), done, start.elapsed());
}

pub fn named(texts: &Texts) {
    let set = &Set::new();
    let first = intern_timed(set, "intern of a new text", &texts.first);
    let again = intern_timed(set, "intern of a text that is there", &texts.again);
    let clones = clone_timed(&again);
    compare_timed("== of one text", &again, &clones, true);
    compare_timed("== of two texts", &again, &clones[1..], false);
    compare_long(set, texts.first.len());
    drop_timed(set, "drop of a clone", clones, false);
    look_up_timed(&first);
    drop(first);
    drop_timed(set, "last drop, of any", again, true);
}

fn over_and_over(name: &str, rounds: usize, len: usize, mut call: impl FnMut(usize) -> bool) {
    let (mut done, start) = (0, Instant::now());
    for _ in 0..rounds {
        for at in 0..len {
            done += usize::from(black_box(call(black_box(at))));
        }
    }
    say(name, rounds * len, done, start.elapsed());
}

pub fn hot(rounds: usize) {
    let set = Set::new();
    let held: Vec<Atom> = DYNAMIC.iter().map(|text| set.intern(text)).collect();
    let short: Vec<Atom> = INLINE.iter().map(|text| set.intern(text)).collect();
    let again: Vec<Atom> = DYNAMIC.iter().map(|text| set.intern(text)).collect();
    over_and_over("intern and drop, inline", rounds, short.len(), |at| {
        set.intern(INLINE[at]).text.len() == INLINE[at].len()
    });
    over_and_over(
        "intern and drop, dynamic and held",
        rounds,
        held.len(),
        |at| set.intern(DYNAMIC[at]).text.len() == DYNAMIC[at].len(),
    );
    over_and_over("clone and drop", rounds, held.len(), |at| {
        held[at].clone().text.len() > 7
    });
    over_and_over("== of one text", rounds, held.len(), |at| {
        held[at] == again[at]
    });
    over_and_over("== of two texts", rounds, held.len(), |at| {
        held[at] != again[7 - at]
    });
}

/// What all threads hold at once. Every other thread goes through the texts in the other order.
fn hold_timed<T: Send>(
    name: &str,
    texts: &Texts,
    workers: usize,
    hold: impl Fn(&[String]) -> Vec<T> + Sync,
) {
    let hold = &hold;
    let start = Instant::now();
    let held: Vec<Vec<T>> = thread::scope(|scope| {
        let own = |n: usize| {
            if n % 2 == 0 {
                &texts.first
            } else {
                &texts.again
            }
        };
        let started: Vec<_> = (0..workers)
            .map(|n| scope.spawn(move || hold(own(n))))
            .collect();
        started
            .into_iter()
            .map(|worker| worker.join().expect("no thread panics"))
            .collect()
    });
    let time = start.elapsed();
    let done = held.iter().map(Vec::len).sum();
    say(name, texts.first.len() * workers, done, time);
}

pub fn crowd(texts: &Texts, workers: usize) {
    let set = &Set::new();
    hold_timed("intern and hold, by all threads", texts, workers, |own| {
        intern_all(set, own)
    });
}

/// The same, and in one hash set behind one lock.
pub fn named_crowd(texts: &Texts, workers: usize) {
    crowd(texts, workers);
    let whole: Mutex<HashSet<Arc<str>>> = Mutex::default();
    hold_timed("the same, behind one lock", texts, workers, |own| {
        own.iter().map(|text| intern_in(&whole, text)).collect()
    });
}

/// The text as it lies in the set, where it is put if it is new.
fn intern_in(whole: &Mutex<HashSet<Arc<str>>>, text: &str) -> Arc<str> {
    let mut whole = whole.lock().expect("no thread has panicked");
    if let Some(text) = whole.get(text) {
        return text.clone();
    }
    let text: Arc<str> = text.into();
    whole.insert(text.clone());
    text
}
