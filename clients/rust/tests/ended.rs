//! What interners had goes with them. This is a program of its own, since what other tests take would count too.

use interned_names::{Interner, SharedInterner};

/// How many pages of memory the program has.
fn pages() -> usize {
    let told = std::fs::read_to_string("/proc/self/statm").expect("what the system tells");
    told.split(' ').nth(1).and_then(|pages| pages.parse().ok()).expect("a number of pages")
}

#[test]
fn interners_end_with_their_names() {
    let text = "x".repeat(1 << 20);
    let before = pages();
    for _ in 0..40 {
        Interner::new().expect("an interner").intern(&text).expect("a symbol");
        let shared = SharedInterner::<()>::with_limits(1, 9, 9, 0).expect("an interner");
        shared.lock_name(&text).intern().expect("a symbol"); // which nothing gives back
    }
    assert!(pages().saturating_sub(before) < 20 * 256, "of 80 megabytes less than 20 are left");
}
