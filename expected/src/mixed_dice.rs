//! Random numbers that are the same in every run, from any seed, or from the bytes of a script.
//!
//! The seeds of `dice` are used as they are; here they are mixed first. What was made with the one
//! would be something else with the other, so there are both.

/// A xorshift64 generator.
pub struct Dice(u64);

impl Dice {
    pub fn new(seed: u64) -> Dice {
        // Zero would give zeros for ever; the product spreads small seeds over the whole word.
        Dice(seed.wrapping_add(1).wrapping_mul(0x9e37_79b9_7f4a_7c15) | 1)
    }

    /// Dice that depend on the bytes only, so that a script gives the same calls whenever it is
    /// tried, also while it is being made smaller.
    pub fn of(bytes: &[u8]) -> Dice {
        let mix = |sum: u64, b: &u8| (sum ^ u64::from(*b)).wrapping_mul(0x0100_0000_01b3);
        Dice::new(bytes.iter().fold(0xcbf2_9ce4_8422_2325, mix))
    }

    pub fn word(&mut self) -> u64 {
        self.0 ^= self.0 << 13;
        self.0 ^= self.0 >> 7;
        self.0 ^= self.0 << 17;
        self.0
    }

    /// A number below a limit, from the upper half, which is mixed better.
    pub fn below(&mut self, limit: usize) -> usize {
        ((self.word() >> 32) % limit as u64) as usize
    }

    /// Whether one in so many holds.
    pub fn one_in(&mut self, many: usize) -> bool {
        self.below(many) == 0
    }

    pub fn pick<'a, T: ?Sized>(&mut self, from: &[&'a T]) -> &'a T {
        from[self.below(from.len())]
    }
}
