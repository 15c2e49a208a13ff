//! Random call logs and texts, the same for the same seed.

pub(crate) mod damage;
pub(crate) mod layered;
mod logs;
pub(crate) mod tables;
mod texts;

pub use logs::log;
pub use texts::text;

/// A xorshift generator: small, fast and the same everywhere.
#[derive(Clone, Debug)]
pub struct Random {
    state: u64,
}

impl Random {
    /// Neighbouring seeds are spread first, and 0 has no place in a xorshift.
    pub fn new(seed: u64) -> Random {
        let mut state = seed.wrapping_add(0x9E37_79B9_7F4A_7C15);
        state = (state ^ (state >> 30)).wrapping_mul(0xBF58_476D_1CE4_E5B9);
        state = (state ^ (state >> 27)).wrapping_mul(0x94D0_49BB_1331_11EB);
        Random { state: (state ^ (state >> 31)) | 1 << 63 }
    }

    fn next(&mut self) -> u64 {
        self.state ^= self.state >> 12;
        self.state ^= self.state << 25;
        self.state ^= self.state >> 27;
        self.state.wrapping_mul(0x2545_F491_4F6C_DD1D)
    }

    /// A number below the limit, which isn't 0.
    pub fn below(&mut self, limit: usize) -> usize {
        ((self.next() >> 32) % limit as u64) as usize
    }

    /// A number from the first to the last.
    pub fn between(&mut self, first: usize, last: usize) -> usize {
        first + self.below(last - first + 1)
    }

    pub fn one_in(&mut self, count: usize) -> bool {
        self.below(count) == 0
    }

    pub fn percent(&mut self, share: usize) -> bool {
        self.below(100) < share
    }

    pub fn pick<Item: Copy>(&mut self, items: &[Item]) -> Item {
        items[self.below(items.len())]
    }

    pub fn shuffle<Item>(&mut self, items: &mut [Item]) {
        for last in (1..items.len()).rev() {
            items.swap(last, self.below(last + 1));
        }
    }

    /// A number that is small, close to one of the limits, or any.
    pub fn odd_number(&mut self) -> u32 {
        const LIMITS: [u32; 20] = [
            0,
            3,
            4,
            8,
            9,
            63,
            64,
            127,
            128,
            255,
            256,
            257,
            511,
            512,
            513,
            2303,
            2304,
            65_535,
            65_536,
            2_147_483_647,
        ];
        match self.below(8) {
            0 => self.below(10) as u32,
            1 => self.between(257, 2303) as u32,
            // Names that come back if only their lower 16 bits are looked at.
            2 => 65_536 + self.between(257, 270) as u32,
            3 => u32::MAX - self.below(2) as u32,
            4 => self.next() as u32,
            _ => self.pick(&LIMITS) + self.below(2) as u32,
        }
    }
}

#[cfg(test)]
mod tests {
    use super::*;

    #[test]
    fn the_same_seed_gives_the_same_log_and_text() {
        for seed in 0..20 {
            assert_eq!(log(seed, 50), log(seed, 50));
            assert_eq!(text(seed), text(seed));
        }
        assert_ne!(log(1, 50), log(2, 50));
    }
}
