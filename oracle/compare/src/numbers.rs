//! Numbers to compare with: the corners, and random ones that favour them.

const PATTERNS: [u64; 12] = [
    0x5555_5555_5555_5555,
    0xaaaa_aaaa_aaaa_aaaa,
    0x3333_3333_3333_3333,
    0xcccc_cccc_cccc_cccc,
    0x0f0f_0f0f_0f0f_0f0f,
    0x0123_4567_89ab_cdef,
    0xfedc_ba98_7654_3210,
    0xffff_ffff_0000_0000,
    0x0000_ffff_ffff_0000,
    0x8000_0000_0000_0001,
    0x5555_5555_5555_5556,
    6_364_136_223_846_793_005,
];

/// Powers of two and their neighbours (among them 0, 1, 2, 3, M, M - 1, and as
/// shift counts 63, 64, 65, 127, 128 and 2^32 - 1), and mixed patterns.
pub fn corners() -> Vec<u64> {
    let near = |k: u32| [(1_u64 << k).wrapping_sub(1), 1 << k, (1 << k) + 1];
    let mut all: Vec<u64> = (0..64).flat_map(near).collect();
    all.extend([u64::MAX, u64::MAX - 1]);
    all.extend(PATTERNS);
    all.sort();
    all.dedup();
    all
}

/// Splitmix64: the same numbers on every machine.
pub struct Random(u64);

impl Random {
    pub fn new(seed: u64) -> Random {
        Random(seed)
    }

    pub fn word(&mut self) -> u64 {
        self.0 = self.0.wrapping_add(0x9e37_79b9_7f4a_7c15);
        let z = (self.0 ^ self.0 >> 30).wrapping_mul(0xbf58_476d_1ce4_e5b9);
        let z = (z ^ z >> 27).wrapping_mul(0x94d0_49bb_1331_11eb);
        z ^ z >> 31
    }

    /// A number below `bound`.
    pub fn below(&mut self, bound: u64) -> u64 {
        self.word() % bound
    }

    /// Small, large, sparse, dense, shifted or near a power of two, as well as any.
    pub fn number(&mut self) -> u64 {
        let shift = self.below(64) as u32;
        match self.below(10) {
            0 => self.below(4),
            1 => self.below(300),
            2 => u64::MAX - self.below(300),
            3 => self.word() & self.word() & self.word(),
            4 => self.word() | self.word() | self.word(),
            5 => self.word() >> shift,
            6 => self.word() << shift,
            7 => (1 << shift) + self.below(5).wrapping_sub(2),
            _ => self.word(),
        }
    }

    /// A number that has to do with `a`, or any.
    pub fn related(&mut self, a: u64) -> u64 {
        match self.below(8) {
            0 => a.wrapping_add(self.below(5)).wrapping_sub(2),
            1 => a.wrapping_neg(),
            2 => a.wrapping_mul(self.below(9)).wrapping_add(self.below(3)),
            3 => a / (1 + self.below(9)),
            4 => u64::MAX / a.max(1) + self.below(3),
            _ => self.number(),
        }
    }
}
