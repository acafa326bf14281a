//! The texts, the clock and the memory.

use std::fs;
use std::time::Duration;

const CLOCK_PROCESS_CPUTIME_ID: i32 = 2;

/// A `timespec` of Linux with 64 bits.
#[repr(C)]
struct Time {
    seconds: i64,
    nanoseconds: i64,
}

extern "C" {
    fn clock_gettime(clock: i32, time: *mut Time) -> i32;
}

/// Processor time.
fn now() -> Duration {
    let mut time = Time { seconds: 0, nanoseconds: 0 };
    // SAFETY: the clock is one of Linux, and the time is ours.
    let status = unsafe { clock_gettime(CLOCK_PROCESS_CPUTIME_ID, &mut time) };
    assert_eq!(status, 0, "the time of this process");
    Duration::new(time.seconds as u64, time.nanoseconds as u32)
}

/// The most memory so far, in bytes.
fn peak() -> f64 {
    let status = fs::read_to_string("/proc/self/status").expect("the state of this process");
    let line = status.lines().find_map(|line| line.strip_prefix("VmHWM:"));
    let kilobytes = line.and_then(|words| words.split_whitespace().next()).and_then(|word| word.parse::<f64>().ok());
    kilobytes.expect("a number of kilobytes") * 1024.0
}

/// Different texts of 19 bytes, in an order that no map has by itself.
pub fn texts_of(count: usize) -> Vec<String> {
    (0..count).map(|at| format!("name number {:07}", at * 7919 % count)).collect()
}

/// Runs the steps of a program one after another over what the first of them makes, and prints what each took for one text. The memory is
/// what the first one took.
pub struct Watch {
    program: &'static str,
    count: usize,
    begin: Duration,
    memory: f64,
}

impl Watch {
    /// Begins now.
    pub fn new(program: &'static str, count: usize) -> Watch {
        Watch { program, count, begin: now(), memory: peak() }
    }

    /// A step has ended.
    pub fn tell(&mut self, what: &str) {
        let time = (now() - self.begin).as_nanos() as f64;
        println!("{} {what} {:.1}", self.program, time / self.count as f64);
        self.begin = now();
    }

    /// The first step has ended.
    pub fn tell_new(&mut self) {
        self.tell("new");
        println!("{} memory {:.1}", self.program, (peak() - self.memory) / self.count as f64);
        self.begin = now();
    }
}
