//! A small random number generator (splitmix64), so that a seed gives the same cases everywhere.

pub struct Rng(u64);

impl Rng {
    pub fn new(seed: u64) -> Rng {
        Rng(seed)
    }

    /// A generator of its own for one name, so that a suite's cases do not depend on its neighbours.
    pub fn named(seed: u64, name: &str) -> Rng {
        let mix =
            |hash: u64, byte: u8| (hash ^ u64::from(byte)).wrapping_mul(0x0000_0100_0000_01B3);
        Rng(seed ^ name.bytes().fold(0xCBF2_9CE4_8422_2325, mix))
    }

    pub fn word(&mut self) -> u64 {
        self.0 = self.0.wrapping_add(0x9E37_79B9_7F4A_7C15);
        let x = (self.0 ^ self.0 >> 30).wrapping_mul(0xBF58_476D_1CE4_E5B9);
        let x = (x ^ x >> 27).wrapping_mul(0x94D0_49BB_1331_11EB);
        x ^ x >> 31
    }

    pub fn wide(&mut self) -> u128 {
        u128::from(self.word()) << 64 | u128::from(self.word())
    }

    /// Below `limit`; the bias of a 64-bit product is too small to matter here.
    pub fn below(&mut self, limit: u64) -> u64 {
        ((u128::from(self.word()) * u128::from(limit)) >> 64) as u64
    }

    pub fn pick<T: Copy>(&mut self, from: &[T]) -> T {
        from[self.below(from.len() as u64) as usize]
    }

    /// Up to 64 bits long, each length equally likely.
    pub fn word_of_any_length(&mut self) -> u64 {
        let shift = self.below(65) as u32;
        self.word().checked_shr(shift).unwrap_or(0)
    }

    /// Up to 128 bits long, each length equally likely.
    pub fn wide_of_any_length(&mut self) -> u128 {
        let shift = self.below(129) as u32;
        self.wide().checked_shr(shift).unwrap_or(0)
    }

    /// Exactly `bits` bits long.
    pub fn wide_of_length(&mut self, bits: u32) -> u128 {
        self.wide() >> (128 - bits) | 1 << (bits - 1)
    }
}
