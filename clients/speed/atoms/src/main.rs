//! Threads that intern and drop in `string_cache` 0.8, as `threads.h` has it, whichever crate has that name.
//!
//! usage: atoms NAME TEXTS THREADS ROUNDS

#[path = "../../measure.rs"]
#[allow(dead_code)]
mod measure;

use measure::{texts_of, Watch};
use std::env;
use std::sync::Barrier;
use std::thread;
use std::time::Instant;
use string_cache::DefaultAtom;

fn main() {
    let words: Vec<String> = env::args().skip(1).collect();
    let number = |at: usize| words.get(at).and_then(|word| word.parse::<usize>().ok()).expect("a number");
    let (texts, count, rounds) = (texts_of(number(1)), number(2), number(3));
    let kept: Vec<DefaultAtom> = texts.iter().map(|text| DefaultAtom::from(text.as_str())).collect();
    let gate = Barrier::new(count + 1);
    let visit_all = |begin: usize| {
        gate.wait();
        for _ in 0..rounds {
            for at in 0..texts.len() {
                drop(DefaultAtom::from(texts[(begin + at) % texts.len()].as_str()));
            }
        }
    };
    let calls = count * rounds * kept.len();
    let (begin, mut watch) = thread::scope(|scope| {
        for own in 1..=count {
            let visit_all = &visit_all;
            scope.spawn(move || visit_all(own * 7919));
        }
        let begin = (Instant::now(), Watch::new(format!("{} {count} threads", words[0]).leak(), calls));
        gate.wait();
        begin
    });
    println!("{} {count} threads clock {:.1}", words[0], begin.elapsed().as_nanos() as f64 / calls as f64);
    watch.tell("processors");
}
