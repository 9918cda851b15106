//! Two faults in one file, through `kin_check`: the one that the customer's order looks at first is the verdict.
//!
//! Covers: every pair of faults in the six-person file, both ways round; pairs stated by number; random pairs in random
//! files and in a largest one.

use independent::checker::Refusal;
use independent::faults::{catalogue, with_faults, Fault};
use independent::files::{self, LinkFile};
use independent::random::Random;
use independent::verdicts::{refuses, stated};

/// Tries two faults together: the one that is looked at first is the verdict.
fn together(file: &[u8], one: &Fault, other: &Fault) -> bool {
    if !one.goes_with(other) {
        return false;
    }
    let first = if one.rank() <= other.rank() {
        one
    } else {
        other
    };
    let changed = with_faults(file, &[one, other]);
    stated(&changed, Err(first.refusal), || {
        format!("{} | {}", one.words, other.words)
    });
    true
}

#[test]
fn every_pair_of_faults_in_the_six_person_file() {
    let shape = files::six_persons();
    let file = shape.bytes();
    let faults = catalogue(&shape);
    let mut met = Met::default();
    for (i, one) in faults.iter().enumerate() {
        for other in &faults[..i] {
            if together(&file, one, other) {
                met.note(one.refusal, other.refusal);
                met.note(other.refusal, one.refusal);
            }
        }
    }
    met.assert_all_numbers();
    met.assert_both_ways_round(&[4, 5]);
    met.assert_both_ways_round(&[7, 8, 9]);
}

/// Which numbers met: anywhere, with the first one's place lower, and at the same place.
#[derive(Default)]
struct Met {
    anywhere: [[bool; 10]; 10],
    lower: [[bool; 10]; 10],
    same: [[bool; 10]; 10],
}

impl Met {
    fn note(&mut self, one: Refusal, other: Refusal) {
        let (a, b) = (one.number as usize, other.number as usize);
        self.anywhere[a][b] = true;
        self.lower[a][b] |= one.place < other.place;
        self.same[a][b] |= one.place == other.place;
    }

    fn assert_all_numbers(&self) {
        for a in 1..=9 {
            for b in 1..=9 {
                assert!(self.anywhere[a][b], "{a} and {b} never met");
            }
        }
    }

    fn assert_both_ways_round(&self, numbers: &[usize]) {
        for &a in numbers {
            for &b in numbers {
                assert!(self.lower[a][b], "{a} never stood before {b}");
                let together = a == b || self.same[a][b];
                assert!(together, "{a} and {b} never stood in one record");
            }
        }
    }
}

#[test]
fn pairs_of_faults_stated_by_number() {
    let shape = files::six_persons();
    let right = shape.bytes();
    let feed_byte = |feed: usize, byte: usize| shape.feed_at(feed) + byte;
    let link_byte = |link: usize, byte: usize| shape.link_at(link) + byte;
    let entry_byte = |entry: usize| shape.entry_at(entry);
    // Two bytes with their new values, and the refusal.
    let cases = [
        (0, 0, 4, 0, 1, 0, "1 before 2"),
        (4, 0, 20, 9, 2, 0, "2 before 3"),
        (28, 9, feed_byte(0, 0), 0, 3, 0, "3 before 4"),
        (feed_byte(0, 3), 1, feed_byte(0, 2), 3, 4, 0, "4 before 5"),
        (feed_byte(0, 2), 3, feed_byte(1, 0), 0, 5, 0, "feed 0's 5"),
        (feed_byte(1, 2), 3, feed_byte(0, 0), 0, 4, 0, "feed 0's 4"),
        (feed_byte(1, 2), 3, entry_byte(0), 1, 5, 1, "5 before 6"),
        (entry_byte(6), 9, link_byte(0, 0), 0, 6, 6, "6 before 7"),
        (entry_byte(3), 3, entry_byte(2), 1, 6, 2, "lowest entry"),
        (link_byte(3, 11), 1, link_byte(3, 10), 0, 7, 3, "7 before 8"),
        (link_byte(3, 10), 0, link_byte(3, 7), 1, 8, 3, "8 before 9"),
        (link_byte(3, 7), 1, link_byte(3, 8), 2, 7, 3, "7 before 9"),
        (link_byte(3, 7), 1, link_byte(4, 0), 2, 9, 3, "link 3's 9"),
        (link_byte(4, 7), 1, link_byte(3, 0), 1, 7, 3, "link 3's 7"),
        (link_byte(8, 10), 6, link_byte(9, 0), 5, 8, 8, "link 8's 8"),
        (link_byte(9, 10), 6, link_byte(8, 7), 1, 9, 8, "link 8's 9"),
    ];
    for (one, value, other, other_value, number, place, words) in cases {
        let mut file = right.clone();
        file[one] = value;
        file[other] = other_value;
        refuses(&file, number, place, words);
    }
}

#[test]
fn random_pairs_of_faults_in_random_files() {
    let mut random = Random::of_test("random_pairs_of_faults_in_random_files");
    let mut tried = 0;
    for _ in 0..200 {
        let shape = files::random_file(&mut random, 9);
        tried += random_pairs(&mut random, &shape, 200);
    }
    let largest = files::largest_uneven(&mut random);
    tried += random_pairs(&mut random, &largest, 3_000);
    assert!(tried > 20_000, "only {tried} pairs went together");
}

fn random_pairs(random: &mut Random, shape: &LinkFile, rounds: usize) -> usize {
    let file = shape.bytes();
    let faults = catalogue(shape);
    let mut tried = 0;
    for _ in 0..rounds {
        let one = random_fault(random, &faults);
        let other = random_fault(random, &faults);
        tried += usize::from(together(&file, one, other));
    }
    tried
}

/// Any fault of a random number: in a large file nearly all faults are links', and the others should have their turn.
fn random_fault<'a>(random: &mut Random, faults: &'a [Fault]) -> &'a Fault {
    let number = random.between(1, 9) as u32;
    for _ in 0..100 {
        let fault = &faults[random.below(faults.len())];
        if fault.refusal.number == number {
            return fault;
        }
    }
    &faults[random.below(faults.len())]
}
