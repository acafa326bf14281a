//! The calls of the benchmark over what one would write without this library: `rustc -O main.rs -o plain`, then
//! `./plain live 100000 12 1`.

mod map;
mod set;
mod texts;

use std::env;
use std::time::Duration;
use texts::Texts;

fn say(name: &str, calls: usize, done: usize, time: Duration) {
    assert_eq!(calls, done, "{name}");
    let tenths = time.as_nanos() * 10 / calls.max(1) as u128;
    println!("{name}: {}.{} ns", tenths / 10, tenths % 10);
}

fn main() {
    let args: Vec<String> = env::args().skip(1).collect();
    let number = |at: usize| args.get(at).and_then(|word| word.parse().ok());
    // The third argument is for the library alone.
    let (Some(count), Some(workers)) = (number(1), number(3)) else {
        panic!("usage: plain table|hot|live|crowd|named|named_crowd N BITS WORKERS");
    };
    match args[0].as_str() {
        "table" => map::table(&Texts::new(count)),
        "hot" => set::hot(count),
        "live" => set::live(&Texts::new(count)),
        "crowd" => set::crowd(&Texts::new(count), workers),
        "named" => set::named(&Texts::new(count)),
        "named_crowd" => set::named_crowd(&Texts::new(count), workers),
        _ => panic!("usage: plain table|hot|live|crowd|named|named_crowd N BITS WORKERS"),
    }
}
