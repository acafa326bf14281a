//! Counts the words of standard input, and prints the most frequent ones with the number of times that each was seen.
//!
//! `cargo run --release --example count_words < README.md`

use interned_names::{Fault, Interner, Symbol};
use std::collections::HashMap;
use std::io::{self, Read};

const MOST: usize = 10; // words that are printed

fn main() -> Result<(), Box<dyn std::error::Error>> {
    let mut text = String::new();
    io::stdin().read_to_string(&mut text)?;
    let mut names = Interner::new()?;
    for (symbol, times) in most_frequent(counts(&mut names, &text)?) {
        println!("{times:>8} {}", names.text(symbol).unwrap_or_default());
    }
    Ok(())
}

/// How often each word of a text occurs. A symbol has 8 bytes, whatever the length of its word.
fn counts(names: &mut Interner, text: &str) -> Result<HashMap<Symbol, u64>, Fault> {
    let mut counts = HashMap::new();
    for word in text.split_whitespace() {
        *counts.entry(names.intern(word)?).or_default() += 1;
    }
    Ok(counts)
}

/// The symbols that occur most often, those first; among equals, those with the smaller number.
fn most_frequent(counts: HashMap<Symbol, u64>) -> Vec<(Symbol, u64)> {
    let mut sorted: Vec<_> = counts.into_iter().collect();
    sorted.sort_by_key(|&(symbol, times)| (std::cmp::Reverse(times), symbol));
    sorted.truncate(MOST);
    sorted
}
