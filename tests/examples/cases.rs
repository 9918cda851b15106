//! Asks all seven operations of so many random cases, each lent slice by itself on the heap: for a run under a memory
//! checker, which sees every step outside a slice and every use of a cell that was never written.

use independent::case::{ask_in, random_case};
use independent::lent::Memory;
use independent::random::Random;

fn main() {
    let cases = std::env::args().nth(1).expect("say how many cases");
    let cases: usize = cases.parse().expect("a whole number of cases");
    let mut random = Random::of_test("cases");
    for _ in 0..cases {
        ask_in(&random_case(&mut random), Memory::Alone);
    }
    println!("{cases} cases, all seven operations each");
}
