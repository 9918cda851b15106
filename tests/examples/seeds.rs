//! Writes the first inputs of the fuzzer, generated cases, to the folder that is named.

use independent::case::{random_case, random_wide_case, LONGEST};
use independent::random::Random;
use std::path::PathBuf;

fn main() {
    let folder = PathBuf::from(std::env::args().nth(1).expect("name a folder"));
    let mut random = Random::of_test("seeds");
    for number in 0..300 {
        let input = match number % 30 {
            0 => random_wide_case(&mut random),
            _ => random_case(&mut random),
        };
        if input.len() <= LONGEST {
            std::fs::write(folder.join(format!("seed-{number}")), input).expect("it is written");
        }
    }
}
