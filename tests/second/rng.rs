//! splitmix64: only wrapping 64-bit arithmetic, so every machine draws the same numbers.

use std::sync::atomic::{AtomicU64, Ordering};

static SEED: AtomicU64 = AtomicU64::new(0);

/// All that is drawn from now on depends on this too. The selftest draws with 0.
pub fn start(seed: u64) {
    SEED.store(seed, Ordering::Relaxed);
}

pub struct Rng {
    state: u64,
}

impl Rng {
    /// Each class of cases draws from a stream of its own.
    pub fn new(stream: u64) -> Rng {
        let mut rng = Rng { state: SEED.load(Ordering::Relaxed) };
        let start = if rng.state == 0 { 0 } else { rng.next() };
        Rng { state: start.wrapping_add(stream) }
    }

    pub fn next(&mut self) -> u64 {
        self.state = self.state.wrapping_add(0x9E37_79B9_7F4A_7C15);
        let mut z = self.state;
        z = (z ^ (z >> 30)).wrapping_mul(0xBF58_476D_1CE4_E5B9);
        z = (z ^ (z >> 27)).wrapping_mul(0x94D0_49BB_1331_11EB);
        z ^ (z >> 31)
    }

    pub fn word(&mut self) -> u32 {
        (self.next() >> 32) as u32
    }

    /// A number in 0..n.
    pub fn below(&mut self, n: u32) -> u32 {
        (self.next() % n as u64) as u32
    }

    /// A number in lo..=hi.
    pub fn span(&mut self, lo: u32, hi: u32) -> u32 {
        lo + self.below(hi - lo + 1)
    }

    /// An odd number below 2^bits, with its length drawn first so that small ones are not rare.
    pub fn odd(&mut self, bits: u32) -> u32 {
        let length = self.span(1, bits);
        (self.next() % (1u64 << length)) as u32 | 1
    }
}
