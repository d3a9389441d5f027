//! Cases: the seed of a run, and a count of what was compared, printed when a test ends.

use reference::generator::Random;

/// The variable of the environment that sets another seed.
pub const SEED_VARIABLE: &str = "COMPARE_SEED";
const SEED: u64 = 2026;

/// The random numbers of one test and the number of its cases.
pub struct Cases {
    name: &'static str,
    seed: u64,
    count: u64,
    pub random: Random,
}

impl Cases {
    pub fn of(name: &'static str) -> Cases {
        let seed = match std::env::var(SEED_VARIABLE) {
            Ok(seed) => seed.parse().expect("the seed is a number"),
            Err(_) => SEED,
        };
        // A name has random numbers of its own, so that no two tests draw alike.
        let own = name.bytes().fold(seed, |mixed, byte| mixed.rotate_left(7) ^ u64::from(byte));
        Cases { name, seed, count: 0, random: Random::from_seed(own) }
    }

    /// Counts one case: both sides were asked.
    pub fn count(&mut self) {
        self.count += 1;
    }
}

impl Drop for Cases {
    fn drop(&mut self) {
        let Cases { name, seed, count, .. } = self;
        println!("compared {name}: {count} cases, seed {seed}");
    }
}
