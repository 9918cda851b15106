//! Whole listings by `kin_portion`, against the brute-force lister.
//!
//! Covers: every split of small listings into portions and random splits of larger ones; random files; links both ways;
//! largest files; listings too long to write down, by the chain that follows.

use independent::asked::Asked;
use independent::files::{self, random_graph};
use independent::lent::untouched;
use independent::lister::{self, following, listed, record, Chain, Listed, Question};
use independent::outside;
use independent::questions::{first_to_last, random_question, Q};
use independent::random::Random;

// Splits.

/// Every way to write `sum` as a sequence of numbers of at least 1.
fn splits(sum: usize) -> Vec<Vec<usize>> {
    if sum == 0 {
        return vec![vec![]];
    }
    let mut all = vec![];
    for first in 1..=sum {
        for mut rest in splits(sum - first) {
            rest.insert(0, first);
            all.push(rest);
        }
    }
    all
}

#[test]
fn every_split_of_small_listings() {
    let mut random = Random::of_test("every_split_of_small_listings");
    let mut by_count = [0; 8];
    Asked::six_persons(Q).by_rooms(&[]);
    for _ in 0..15_000 {
        let asked = Asked::random(&mut random, 7);
        let count = asked.chains().len();
        if count < 8 && by_count[count] < 25 {
            by_count[count] += 1;
            for rooms in splits(count) {
                asked.by_rooms(&rooms);
            }
            asked.by_rooms(&[count + 1]);
        }
    }
    assert!(by_count.iter().all(|&count| count >= 5), "{by_count:?}");
}

#[test]
fn random_splits_of_larger_listings() {
    let mut random = Random::of_test("random_splits_of_larger_listings");
    let mut longest = 0;
    for round in 0..120 {
        let asked = if round % 2 == 0 {
            Asked::random(&mut random, 9)
        } else {
            let persons = random.between(6, 8);
            let parts = random.between(6, 10);
            let file = random_graph(&mut random, persons, parts).bytes();
            Asked::new(file, first_to_last(persons, 8))
        };
        longest = longest.max(asked.chains().len());
        let most = random.one_of(&[3, 20, 200]);
        let rooms: Vec<usize> = (0..2_000).map(|_| random.between(1, most)).collect();
        asked.by_rooms(&rooms);
    }
    assert!(longest > 300, "{longest}");
}

// Random files.

#[test]
fn random_questions_over_random_files() {
    let mut random = Random::of_test("random_questions_over_random_files");
    let mut with_chains = 0;
    for _ in 0..30_000 {
        let asked = Asked::random(&mut random, 7);
        let room = random.one_of(&[1, 2, 5, 30, 400]);
        let spare = random.below(10);
        let _ = asked.portion(0, &[], 10 * room + spare);
        let chains = asked.chains();
        with_chains += usize::from(!chains.is_empty());
        for _ in 0..chains.len().min(3) {
            let chain = &chains[random.below(chains.len())];
            let _ = asked.portion(1, &record(chain), 10 * room + spare);
        }
    }
    assert!(with_chains > 5_000, "{with_chains}");
}

#[test]
fn random_graphs_resumed_at_every_chain() {
    let mut random = Random::of_test("random_graphs_resumed_at_every_chain");
    for _ in 0..40_000 {
        let persons = random.between(4, 9);
        let parts = random.between(1, 4);
        let file = random_graph(&mut random, persons, parts).bytes();
        let hops = random.between(2, 8) as u32;
        let asked = Asked::new(file, first_to_last(persons, hops));
        let cells = 10 * (asked.chains().len() + 1);
        let _ = asked.portion(0, &[], cells);
        for chain in asked.chains() {
            let _ = asked.portion(1, &record(chain), cells);
        }
    }
}

#[test]
fn two_way_families() {
    // Links both ways, as between relatives: ways close and reopen more often than in other graphs.
    let mut random = Random::of_test("two_way_families");
    for _ in 0..8_000 {
        let persons = random.between(5, 11);
        let file = files::two_way_family(&mut random, persons).bytes();
        let hops = random.between(3, 8) as u32;
        let asked = Asked::new(file, first_to_last(persons, hops));
        let cells = 10 * (asked.chains().len() + 1);
        let _ = asked.portion(0, &[], cells);
        for chain in asked.chains().iter().step_by(3) {
            let _ = asked.portion(1, &record(chain), cells);
        }
    }
}

// Large files.

#[test]
fn sparse_questions_over_largest_files() {
    let mut random = Random::of_test("sparse_questions_over_largest_files");
    for _ in 0..20 {
        let file = files::largest().bytes();
        let mut question = random_question(&mut random, 1024);
        question.hops = random.between(1, 6) as u32;
        let asked = Asked::new(file, question);
        let cells = 10 * asked.chains().len() + 25;
        let _ = asked.portion(0, &[], cells);
        let _ = asked.portion(0, &[], 10);
        for chain in asked.chains().iter().step_by(7) {
            let _ = asked.portion(1, &record(chain), 25);
        }
    }
}

/// Asks for portions from a chain on, and for each record whether it is the chain that follows the one before.
fn follow(file: &[u8], question: &Question, start: &[u32], room: usize, portions: usize) {
    let mut last = start.to_vec();
    for _ in 0..portions {
        let mut out = untouched(10 * room);
        let told = outside::portion(file, question, 1, &record(&last), &mut out);
        let Ok(Listed { count, ended }) = told else {
            panic!("{last:?} is a chain: told {told:?}");
        };
        for i in 0..count as usize {
            let next = following(file, question, &last).expect("no more than there are");
            assert_eq!(out[10 * i..10 * i + 10], record(&next), "after {last:?}");
            last = next;
        }
        let end = 10 * count as usize;
        assert_eq!(out[end..], untouched(10 * room)[end..]);
        assert!(ended || count as usize == room);
        assert_eq!(ended, following(file, question, &last).is_none());
    }
}

#[test]
fn a_listing_too_long_to_write_down() {
    let mut random = Random::of_test("a_listing_too_long_to_write_down");
    // 2.5 * 10^12 chains.
    let file = files::everybody_linked(64).bytes();
    let question = first_to_last(64, 8);
    let mut out = untouched(10);
    let first = [0, 1, 2, 3, 4, 5, 6, 7, 63];
    let told = outside::portion(&file, &question, 0, &[], &mut out);
    assert_eq!((told, &out[..]), (listed(1, false), &record(&first)[..]));
    follow(&file, &question, &first, 40, 3);
    for _ in 0..15 {
        let start = random_chain(&mut random, 8);
        follow(&file, &question, &start, 7, 1);
    }
    // The very last chains.
    follow(&file, &question, &[0, 62, 61, 60, 59, 58, 57, 55, 63], 5, 1);
    follow(&file, &question, &[0, 62, 61, 63], 5, 1);
    follow(&file, &question, &[0, 62, 63], 5, 2);
}

/// From 0 to 63 over different persons, 1 to `most_hops` hops.
fn random_chain(random: &mut Random, most_hops: usize) -> Chain {
    let mut between: Vec<u32> = (1..63).collect();
    random.shuffle(&mut between);
    between.truncate(random.below(most_hops));
    [vec![0], between, vec![63]].concat()
}

#[test]
fn long_listings_of_random_dense_graphs() {
    let mut random = Random::of_test("long_listings_of_random_dense_graphs");
    for _ in 0..10 {
        let persons = random.between(20, 60);
        let file = random_graph(&mut random, persons, 5).bytes();
        let question = first_to_last(persons, random.between(5, 8) as u32);
        let mut out = untouched(10);
        let told = outside::portion(&file, &question, 0, &[], &mut out);
        if told == listed(1, false) {
            let hops = out[0] as usize;
            let first = out[1..hops + 2].to_vec();
            assert_eq!(Some(&first), lister::first(&file, &question).as_ref());
            follow(&file, &question, &first, 30, 3);
        }
    }
}
