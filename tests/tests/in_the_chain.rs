//! Who is in the chain already, asked at every place of a chain and of everybody, against the brute-force listers: answer and
//! every output cell.
//!
//! A chain has at most nine persons. The cells of its record that they do not fill hold 0, and before them stand the hops:
//! both could be the number of a person. A search that asks the chain who is in it must take neither for one, and must miss
//! nobody.
//!
//! Covers: somebody met again, the first, any between or the last but one, behind each number of persons, with each hop
//! left over; each of these with every number from 0 to 8 at every place, so that person 0 stands everywhere, and whoever
//! has the number of the hops or of the persons; loops of two; rings that could come back in the middle; everybody linked
//! with everybody; numbers that differ in their high bits only; random graphs with long chains. All graphs of four persons
//! are in `exhaustive.rs` and `rings_exhaustive.rs`.

use independent::asked::Asked;
use independent::files::{self, random_graph, MOST_PERSONS};
use independent::lister::{record, Chain, Question};
use independent::questions::Q;
use independent::random::{rounds, Random};

/// Are rings asked for?
fn closed(asked: &Asked) -> bool {
    asked.question.from == asked.question.to
}

/// The chains, or the rings where From is To.
fn all_of(asked: &Asked) -> &[Chain] {
    if closed(asked) {
        asked.rings()
    } else {
        asked.chains()
    }
}

/// Asks for all at once, and behind each, or behind one in so many, for one and for all.
fn everything_behind_each(asked: &Asked, step: usize) {
    let portion = |started, bookmark: &[u32], cells| {
        let _ = if closed(asked) {
            asked.ring_portion(started, bookmark, cells)
        } else {
            asked.portion(started, bookmark, cells)
        };
    };
    let all = all_of(asked);
    let whole = 10 * all.len() + 15;
    portion(0, &[], whole);
    for place in (0..all.len()).step_by(step) {
        portion(1, &record(&all[place]), 10);
        portion(1, &record(&all[place]), whole - 10 * place);
    }
}

/// From one person to another, or back to the same one.
fn between(from: u32, to: u32, hops: u32) -> Question {
    Question {
        from,
        to,
        hops,
        ..Q
    }
}

/// The undated file of these links; some may be said twice.
fn file_of(persons: usize, pairs: &[(u32, u32)]) -> Vec<u8> {
    let mut pairs = pairs.to_vec();
    pairs.sort();
    pairs.dedup();
    files::undated(persons, &pairs).bytes()
}

// Persons in a line, with links back.

/// The numbers 0 to `count` - 1 in a line, rising and falling, begun with each: so everybody stands at every place.
fn turned_lines(count: u32) -> Vec<Vec<u32>> {
    let rising = |first: u32| (0..count).map(|place| (first + place) % count).collect();
    let falling = |first: u32| {
        (0..count)
            .map(|place| (first + count - place) % count)
            .collect()
    };
    let begun = 0..count;
    begun
        .clone()
        .map(rising)
        .chain(begun.map(falling))
        .collect()
}

/// A line of persons that leads from the first, who is From, on to To, who is the first again for rings.
struct Line {
    persons: usize,
    numbers: Vec<u32>,
    to: u32,
}

impl Line {
    /// The last number is To's.
    fn of_chains(persons: usize, numbers: &[u32]) -> Line {
        let (to, numbers) = numbers.split_last().expect("a line has persons");
        Line {
            persons,
            numbers: numbers.to_vec(),
            to: *to,
        }
    }

    fn of_rings(persons: usize, numbers: &[u32]) -> Line {
        Line {
            persons,
            numbers: numbers.to_vec(),
            to: numbers[0],
        }
    }

    /// From the places `exits`, and from the last, a link leads to To. The links back are given by their places, and make no
    /// chain more: whoever they lead to is in the chain. So the chains are known.
    fn lists(&self, exits: &[usize], back: &[(usize, usize)], hops: u32) {
        let line = &self.numbers;
        let mut exits = exits.to_vec();
        exits.push(line.len() - 1);
        exits.sort();
        exits.dedup();
        let mut pairs: Vec<_> = line.windows(2).map(|two| (two[0], two[1])).collect();
        pairs.extend(exits.iter().map(|&place| (line[place], self.to)));
        pairs.extend(back.iter().map(|&(one, other)| (line[one], line[other])));
        exits.retain(|&place| place < hops as usize);
        let chain = |&place: &usize| [&line[..=place], &[self.to]].concat();
        let mut right: Vec<Chain> = exits.iter().map(chain).collect();
        right.sort();
        let question = between(line[0], self.to, hops);
        let asked = Asked::new(file_of(self.persons, &pairs), question);
        assert_eq!(all_of(&asked), right, "{question:?} {pairs:?}");
        everything_behind_each(&asked, 1);
    }

    /// Each link back by itself, with a way to To at every place, and only where it leads; then each to the one before, and all.
    fn meets_everybody_again(&self, hops: std::ops::RangeInclusive<u32>) {
        // To is met again in a ring, and ends it.
        let first = usize::from(self.to == self.numbers[0]);
        let places = first..self.numbers.len();
        let back: Vec<_> = places
            .clone()
            .flat_map(|later| (first..later).map(move |earlier| (later, earlier)))
            .collect();
        let to_the_one_before = back.iter().copied().filter(|(one, other)| one - other == 1);
        let loops: Vec<_> = to_the_one_before.collect();
        let everywhere: Vec<_> = places.collect();
        for hops in hops {
            for &(later, earlier) in &back {
                self.lists(&everywhere, &[(later, earlier)], hops);
                self.lists(&[earlier], &[(later, earlier)], hops);
            }
            self.lists(&everywhere, &loops, hops);
            self.lists(&everywhere, &back, hops);
        }
    }
}

#[test]
fn everybody_of_a_chain_met_again() {
    for numbers in turned_lines(9) {
        Line::of_chains(9, &numbers).meets_everybody_again(1..=8);
    }
}

#[test]
fn everybody_of_a_ring_met_again() {
    for numbers in turned_lines(8) {
        Line::of_rings(8, &numbers).meets_everybody_again(2..=8);
    }
}

/// Numbers that are the same but for their high bits, or but for their low ones, in a file of 1,024 persons.
#[test]
fn numbers_that_are_nearly_the_same() {
    let lines = [
        [0, 256, 512, 768, 1, 257, 513, 769, 1_023],
        [1_023, 767, 511, 255, 0, 1, 2, 4, 8],
        [5, 21, 37, 0, 53, 69, 85, 101, 117],
        [1_008, 1_009, 512, 0, 1_010, 496, 3, 1_011, 16],
    ];
    for numbers in lines {
        Line::of_chains(MOST_PERSONS, &numbers).meets_everybody_again(8..=8);
        Line::of_rings(MOST_PERSONS, &numbers[..8]).meets_everybody_again(8..=8);
    }
}

// Rings that could come back in the middle.

#[test]
fn three_rings_through_one_person() {
    for line in turned_lines(7) {
        let [person, a, b, c, d, e, f] = line[..] else {
            panic!("seven persons");
        };
        let mut rings = [
            vec![person, a, b, person],
            vec![person, c, d, e, person],
            vec![person, f, person],
        ];
        let pairs: Vec<_> = rings.iter().flat_map(|ring| links_of(ring)).collect();
        rings.sort();
        let file = file_of(7, &pairs);
        for hops in 4..=8 {
            let asked = Asked::new(file.clone(), between(person, person, hops));
            assert_eq!(asked.rings(), rings);
            asked.everything_of_rings();
            // From any other it is on by that ring to the person in whom all meet, and no further.
            let asked = Asked::new(file.clone(), between(a, f, hops));
            assert_eq!(asked.chains(), [vec![a, b, person, f]]);
            everything_behind_each(&asked, 1);
        }
    }
}

fn links_of(chain: &[u32]) -> Vec<(u32, u32)> {
    chain.windows(2).map(|two| (two[0], two[1])).collect()
}

// Everybody linked, and nearly nobody.

/// A chain of eight hops passes all nine.
#[test]
fn nine_persons_all_linked() {
    let file = files::everybody_linked(9).bytes();
    for from in 0..9 {
        for to in (0..9).filter(|&to| to != from) {
            let asked = Asked::new(file.clone(), between(from, to, 8));
            assert_eq!(asked.chains().len(), 13_700);
            everything_behind_each(&asked, 4_001);
        }
    }
}

/// A ring of eight hops passes all eight.
#[test]
fn eight_persons_all_linked() {
    let file = files::everybody_linked(8).bytes();
    for person in 0..8 {
        let asked = Asked::new(file.clone(), between(person, person, 8));
        assert_eq!(asked.rings().len(), 13_699);
        everything_behind_each(&asked, 1_001);
    }
}

#[test]
fn random_graphs_with_long_chains() {
    let mut random = Random::of_test("random_graphs_with_long_chains");
    let mut longest = 0;
    for _ in 0..rounds(800, 20_000) {
        let persons = random.between(8, 10);
        let file = random_graph(&mut random, persons, 3).bytes();
        let from = random.below(persons) as u32;
        for to in 0..persons as u32 {
            let asked = Asked::new(file.clone(), between(from, to, 8));
            let all = all_of(&asked);
            longest += all.iter().filter(|chain| chain.len() == 9).count();
            everything_behind_each(&asked, 1 + all.len() / 3);
        }
    }
    assert!(longest > 5_000, "{longest}");
}
