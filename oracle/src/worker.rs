//! A run is dealt to workers, each of which draws from a generator of its own.

use crate::inputs::Rng;

/// One of the workers of a run, from 0 on, of how many, and the run's seed.
#[derive(Clone, Copy)]
pub struct Worker {
    pub number: usize,
    pub of: usize,
    pub seed: u64,
}

impl Worker {
    pub fn generator(&self) -> Rng {
        Rng::seeded(self.seed, self.number as u64 + 1)
    }
}
