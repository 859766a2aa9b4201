//! Random numbers, the same from the same seed on every machine.

const MODULUS: u64 = 2_147_483_647;

/// docs/SWEEP.md, "Drawing numbers".
pub struct Draw {
    state: u64,
}

impl Draw {
    /// "The state starts at `seed % 2147483646 + 1`."
    pub fn new(seed: u64) -> Draw {
        Draw {
            state: seed % (MODULUS - 1) + 1,
        }
    }

    /// For books: the seed's bits are mixed first, since the draws of
    /// neighbouring seeds would be too much alike.
    pub fn scattered(seed: u64) -> Draw {
        let mut mixed = seed.wrapping_add(0x9e37_79b9_7f4a_7c15);
        mixed = (mixed ^ (mixed >> 30)).wrapping_mul(0xbf58_476d_1ce4_e5b9);
        mixed = (mixed ^ (mixed >> 27)).wrapping_mul(0x94d0_49bb_1331_11eb);
        Draw::new(mixed ^ (mixed >> 31))
    }

    /// "To draw is to make it `state * 48271 % 2147483647`. `draw k` draws
    /// once and gives `state % k`." Of nothing to choose from it gives 0.
    pub fn below(&mut self, k: u64) -> u64 {
        self.state = self.state * 48_271 % MODULUS;
        self.state.checked_rem(k).unwrap_or(0)
    }

    /// The same for sizes and places.
    pub fn index(&mut self, k: usize) -> usize {
        self.below(k as u64) as usize
    }

    /// True once in k times.
    pub fn once_in(&mut self, k: u64) -> bool {
        self.below(k) == 0
    }
}

/// "The digest of some bytes starts at 7, and each byte makes it
/// `(digest * 31 + byte + 1) % 2147483647`."
pub fn digest(bytes: &[u8]) -> u64 {
    bytes.iter().fold(7, |digest, &byte| {
        (digest * 31 + u64::from(byte) + 1) % MODULUS
    })
}
