//! Interns the lines of a file, and tells how many nanoseconds of the clock one took.

use interned_names::Interner;
use std::time::Instant;

fn main() -> Result<(), Box<dyn std::error::Error>> {
    let file = std::env::args().nth(1).ok_or("usage: intern_lines FILE")?;
    let text = std::fs::read_to_string(&file)?;
    let lines: Vec<&str> = text.lines().collect();
    let begin = Instant::now();
    let mut names = Interner::new()?;
    for line in &lines {
        names.intern(line)?;
    }
    let spent = begin.elapsed().as_nanos() as f64;
    println!("Rust {file} {:.1}", spent / lines.len() as f64);
    Ok(())
}
