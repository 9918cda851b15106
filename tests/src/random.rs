//! A small seeded generator (splitmix64), so that every random run can be repeated.

use std::env;

/// The seed of a run where the environment names none.
const USUAL_SEED: u64 = 20_011;

/// Set this to a number to run the random tests with that seed.
const SEED_VARIABLE: &str = "KIN_SEED";

/// Set this to anything for the longer run.
const LONG_VARIABLE: &str = "KIN_LONG";

/// How many rounds a test goes: as many as the gate has time for, or as many as the longer run has.
pub fn rounds(gate: usize, long: usize) -> usize {
    if env::var_os(LONG_VARIABLE).is_some() {
        long
    } else {
        gate
    }
}

pub struct Random {
    state: u64,
}

impl Random {
    /// Starts a test's generator and prints the seed: the output of a test is shown when it fails.
    pub fn of_test(test: &str) -> Random {
        let seed = match env::var(SEED_VARIABLE) {
            Ok(words) => words.parse().expect("the seed is a whole number"),
            Err(_) => USUAL_SEED,
        };
        println!("{test}: again with {SEED_VARIABLE}={seed}");
        Random::with_seed(seed)
    }

    pub fn with_seed(seed: u64) -> Random {
        Random { state: seed }
    }

    pub fn any(&mut self) -> u64 {
        self.state = self.state.wrapping_add(0x9E37_79B9_7F4A_7C15);
        let mut mixed = self.state;
        mixed = (mixed ^ (mixed >> 30)).wrapping_mul(0xBF58_476D_1CE4_E5B9);
        mixed = (mixed ^ (mixed >> 27)).wrapping_mul(0x94D0_49BB_1331_11EB);
        mixed ^ (mixed >> 31)
    }

    /// A number below `bound`, which is at least 1. The slight lean of the remainder does not matter here.
    pub fn below(&mut self, bound: usize) -> usize {
        (self.any() % bound as u64) as usize
    }

    /// A number from `low` to `high`, both included.
    pub fn between(&mut self, low: usize, high: usize) -> usize {
        low + self.below(high - low + 1)
    }

    /// True `parts` times in `whole`.
    pub fn chance(&mut self, parts: usize, whole: usize) -> bool {
        self.below(whole) < parts
    }

    pub fn one_of<T: Copy>(&mut self, choices: &[T]) -> T {
        choices[self.below(choices.len())]
    }

    pub fn shuffle<T>(&mut self, items: &mut [T]) {
        for i in (1..items.len()).rev() {
            items.swap(i, self.below(i + 1));
        }
    }
}
