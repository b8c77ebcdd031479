//! Numbers drawn at random, the same at each run.

/// A linear congruential generator.
#[derive(Drop)]
pub struct Draws {
    state: u64,
}

impl Draws {
    /// The generator before its first draw.
    pub fn new(start: u64) -> Draws {
        Draws { state: start }
    }

    /// A number below the bound.
    pub fn below(&mut self, bound: usize) -> usize {
        self.state = self
            .state
            .wrapping_mul(6364136223846793005)
            .wrapping_add(1442695040888963407);
        (self.state >> 33) as usize % bound
    }
}
