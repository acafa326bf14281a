//! The texts that are interned, as the benchmark of this repository makes them.

/// Random numbers, the same in every run (xorshift: Marsaglia, 2003).
struct Random {
    state: u64,
}

impl Random {
    fn next(&mut self) -> u64 {
        let mut x = self.state;
        x ^= x << 13;
        x ^= x >> 7;
        x ^= x << 17;
        self.state = x;
        x
    }

    fn below(&mut self, limit: usize) -> usize {
        (self.next() % limit as u64) as usize
    }

    /// 8 to 32 letters.
    fn text(&mut self) -> String {
        let letters = 8 + self.below(25);
        let mut text = String::with_capacity(letters);
        for _ in 0..letters {
            text.push((b'A' + (self.next() % 32) as u8) as char);
        }
        text
    }
}

/// So many texts, the same texts in another order, and a tenth as many other ones.
pub struct Texts {
    pub first: Vec<String>,
    pub again: Vec<String>,
    pub more: Vec<String>,
}

impl Texts {
    pub fn new(count: usize) -> Texts {
        let mut random = Random {
            state: 0x9e37_79b9_7f4a_7c15,
        };
        let first: Vec<String> = (0..count).map(|_| random.text()).collect();
        let mut order: Vec<usize> = (0..count).collect();
        for at in 1..count {
            let other = random.below(at + 1);
            order.swap(at, other);
        }
        let again = order.iter().map(|&at| first[at].clone()).collect();
        let more = (0..count / 10).map(|_| random.text()).collect();
        Texts { first, again, more }
    }
}
