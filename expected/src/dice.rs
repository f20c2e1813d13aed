//! Random numbers that are the same in every run.

/// A xorshift64 generator.
pub struct Dice(u64);

impl Dice {
    /// A generator whose numbers follow from the seed, which is not 0.
    pub fn new(seed: u64) -> Dice {
        assert_ne!(seed, 0, "a xorshift generator stays at 0");
        Dice(seed)
    }

    /// A number below a limit.
    pub fn roll(&mut self, below: u64) -> u64 {
        self.0 ^= self.0 << 13;
        self.0 ^= self.0 >> 7;
        self.0 ^= self.0 << 17;
        self.0 % below
    }

    /// One of several things.
    pub fn pick<'a, T>(&mut self, things: &'a [T]) -> &'a T {
        &things[self.roll(things.len() as u64) as usize]
    }

    /// Up to `most` pieces, one after the other.
    pub fn string(&mut self, pieces: &[&[u8]], most: u64) -> Vec<u8> {
        let count = self.roll(most + 1);
        (0..count)
            .flat_map(|_| self.pick(pieces).to_vec())
            .collect()
    }
}
