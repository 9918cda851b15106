//! The portion, through `kin_portion`, against the brute-force lister: answer and every output cell.
//!
//! Covers: every case stated for the six-person file but the half chains; small graphs on which wrong pruning loses
//! chains, fresh and resumed at every chain; a large dead region; outputs of every length; the order of refusals 1 to 17, 20.
//! Long and random listings are in `listings.rs`, bookmarks in `bookmarks.rs`. File and bookmark have to stay as they
//! came in every call, and the output's cells are compared whole.

use independent::asked::{cells_of, Asked};
use independent::checker::{refused, LAST_DAY};
use independent::faults::{catalogue, with_faults};
use independent::files;
use independent::lent::untouched;
use independent::lister::{listed, record, Question};
use independent::outside;
use independent::questions::{faulty_questions, first_to_last, random_question, A, B, C, Q};
use independent::random::Random;

// The stated cases.

/// A question about the six-person file whose whole listing is stated.
fn lists(question: Question, chains: &[&[u32]]) {
    let asked = Asked::six_persons(question);
    let (answer, out) = asked.portion(0, &[], 45);
    assert_eq!(answer, listed(chains.len() as u64, true), "{question:?}");
    assert_eq!(out, cells_of(chains, 45), "{question:?}");
}

fn refuses(question: Question, number: u32, place: u32) {
    let asked = Asked::six_persons(question);
    let (answer, out) = asked.portion(0, &[], 45);
    assert_eq!(answer, refused(number, place), "{question:?}");
    assert_eq!(out, untouched(45));
}

#[test]
#[rustfmt::skip]
fn p1_to_p8() {
    lists(Q, &[A, B, C]);
    lists(Question { hops: 3, ..Q }, &[A, C]);
    lists(Question { hops: 2, ..Q }, &[]);
    lists(Question { classes: 1, ..Q }, &[A]);
    lists(Question { meaning: 2, ..Q }, &[]);
    lists(Question { first_day: 700_001, ..Q }, &[B, C]);
    lists(Question { last_day: 700_400, ..Q }, &[A, B, C]);
    lists(Question { last_day: 700_399, ..Q }, &[]);
}

#[test]
fn p9_to_p11() {
    let asked = Asked::six_persons(Q);
    let (answer, out) = asked.portion(0, &[], 20);
    assert_eq!((answer, out), (listed(2, false), cells_of(&[A, B], 20)));
    let (answer, out) = asked.portion(1, &record(B), 20);
    assert_eq!((answer, out), (listed(1, true), cells_of(&[C], 20)));
    let (answer, out) = asked.portion(0, &[], 30);
    assert_eq!((answer, out), (listed(3, true), cells_of(&[A, B, C], 30)));
}

#[test]
#[rustfmt::skip]
fn the_other_stated_cases() {
    let bad_bookmark = |question, chain: &[u32]| {
        let (answer, out) = Asked::six_persons(question).portion(1, &record(chain), 45);
        assert_eq!((answer, out), (refused(17, 0), untouched(45)));
    };
    bad_bookmark(Q, &[0, 1, 4, 5]);
    bad_bookmark(Question { hops: 3, ..Q }, B);
    refuses(Question { hops: 0, ..Q }, 12, 0);
    refuses(Question { hops: 9, ..Q }, 12, 0);
    lists(Question { hops: 8, ..Q }, &[A, B, C]);
    refuses(Question { classes: 0, ..Q }, 13, 0);
    refuses(Question { classes: 16, ..Q }, 13, 0);
    refuses(Question { to: 6, ..Q }, 10, 1);
    let mut file = files::six_persons();
    file.feeds[1].meaning = 3;
    assert_eq!(Asked::new(file.bytes(), Q).portion(0, &[], 45).0, refused(5, 1));
    let shorter = files::six_persons().bytes()[..187].to_vec();
    assert_eq!(Asked::new(shorter, Q).portion(0, &[], 45).0, refused(3, 0));
    let (answer, out) = Asked::six_persons(Q).portion(0, &[], 9);
    assert_eq!((answer, out), (refused(16, 0), untouched(9)));
}

#[test]
fn every_question_over_the_six_person_file() {
    for from in 0..6 {
        for to in 0..6 {
            for hops in 1..=8 {
                for classes in [1, 5, 7, 15] {
                    let question = Question {
                        from,
                        to,
                        hops,
                        classes,
                        ..Q
                    };
                    let asked = Asked::six_persons(question);
                    let _ = asked.portion(0, &[], 100);
                    if asked.passes() {
                        asked.fresh_with_every_room();
                        asked.resumed_at_every_chain();
                    }
                }
            }
        }
    }
}

// Graphs on which pruning goes wrong easily.

fn lists_of_graph(persons: usize, pairs: &[(u32, u32)], hops: u32, chains: &[&[u32]]) {
    let file = files::undated(persons, pairs).bytes();
    let asked = Asked::new(file, first_to_last(persons, hops));
    assert_eq!(asked.chains(), chains);
    asked.fresh_with_every_room();
    asked.resumed_at_every_chain();
    asked.by_rooms(&[]);
}

#[test]
fn a_barrier_outlives_the_chain_it_depended_on() {
    let pairs = [(0, 1), (0, 2), (1, 3), (1, 4), (2, 3), (3, 1)];
    lists_of_graph(5, &pairs, 4, &[&[0, 1, 4], &[0, 2, 3, 1, 4]]);
}

#[test]
fn a_person_left_without_a_new_chain_had_one_before_the_bookmark() {
    let pairs = [(0, 1), (0, 2), (1, 3), (2, 1)];
    lists_of_graph(4, &pairs, 3, &[&[0, 1, 3], &[0, 2, 1, 3]]);
}

#[test]
fn the_shortest_way_lies_in_a_skipped_branch() {
    let pairs = [(0, 1), (0, 3), (1, 2), (1, 3), (2, 4), (3, 1), (3, 2)];
    let chains: [&[u32]; 4] = [
        &[0, 1, 2, 4],
        &[0, 1, 3, 2, 4],
        &[0, 3, 1, 2, 4],
        &[0, 3, 2, 4],
    ];
    lists_of_graph(5, &pairs, 4, &chains);
}

#[test]
fn a_person_is_entered_again_with_one_hop_more() {
    // 4 fails under 3 and 1 with two hops left, since its short way goes back over 3; with three hops it has another.
    let pairs = [
        (0, 3),
        (1, 4),
        (2, 6),
        (3, 1),
        (3, 4),
        (3, 6),
        (4, 3),
        (4, 5),
        (5, 2),
    ];
    lists_of_graph(7, &pairs, 5, &[&[0, 3, 4, 5, 2, 6], &[0, 3, 6]]);
}

#[test]
fn several_kinds_in_one_small_graph() {
    let mut file = files::undated(5, &[(0, 1), (0, 3), (1, 2), (1, 4), (2, 1), (3, 2)]);
    file.rows[0][0].kind = 5;
    file.rows[1][1].kind = 5;
    let asked = Asked::new(file.bytes(), first_to_last(5, 4));
    assert_eq!(asked.chains(), [vec![0, 1, 4], vec![0, 3, 2, 1, 4]]);
    asked.fresh_with_every_room();
    asked.resumed_at_every_chain();
    for classes in 1..=15 {
        let question = Question {
            classes,
            ..asked.question
        };
        Asked::new(file.bytes(), question).by_rooms(&[]);
    }
}

#[test]
fn paths_of_exactly_k_hops() {
    for hops in 1..=8 {
        let pairs: Vec<(u32, u32)> = (0..hops).map(|person| (person, person + 1)).collect();
        let chain: Vec<u32> = (0..=hops).collect();
        lists_of_graph(hops as usize + 1, &pairs, hops, &[&chain]);
        if hops > 1 {
            lists_of_graph(hops as usize + 1, &pairs, hops - 1, &[]);
        }
    }
}

#[test]
fn no_chain_passes_to_or_comes_back_to_from() {
    let pairs = [
        (0, 1),
        (1, 0),
        (0, 3),
        (3, 2),
        (2, 3),
        (1, 3),
        (3, 0),
        (3, 1),
        (2, 1),
    ];
    lists_of_graph(4, &pairs, 8, &[&[0, 1, 3], &[0, 3]]);
}

#[test]
fn a_large_dead_region() {
    // 0, then b, then 62 persons all linked with each other and back to b, then c and the end: one chain.
    let (b, c, end) = (1, 64, 65);
    let mut pairs = vec![(0, b), (b, c), (c, end)];
    for person in 2..64 {
        pairs.extend([(b, person), (person, b)]);
        pairs.extend(
            (2..64)
                .filter(|&other| other != person)
                .map(|other| (person, other)),
        );
    }
    let file = files::undated(66, &pairs).bytes();
    let question = first_to_last(66, 8);
    let chain = [0, b, c, end];
    for room in [1, 2] {
        let mut out = untouched(10 * room);
        let told = outside::portion(&file, &question, 0, &[], &mut out);
        assert_eq!(told, listed(1, true));
        assert_eq!(out, cells_of(&[&chain], 10 * room));
    }
    let mut out = untouched(10);
    let told = outside::portion(&file, &question, 1, &record(&chain), &mut out);
    assert_eq!((told, out), (listed(0, true), untouched(10)));
}

// Output.

#[test]
fn outputs_of_every_length() {
    let asked = Asked::six_persons(Q);
    for cells in 0..=64 {
        let (answer, _) = asked.portion(0, &[], cells);
        assert_eq!(answer.is_err(), cells < 10);
        for chain in [A, B, C] {
            let _ = asked.portion(1, &record(chain), cells);
        }
    }
    let (answer, out) = asked.portion(0, &[], 29);
    assert_eq!((answer, out), (listed(2, false), cells_of(&[A, B], 29)));
    let (answer, out) = asked.portion(1, &record(C), 29);
    assert_eq!((answer, out), (listed(0, true), untouched(29)));
    let (answer, _) = asked.portion(0, &[], 100_000);
    assert_eq!(answer, listed(3, true));
}

#[test]
fn no_cells_at_the_null_pointer() {
    let file = files::six_persons().bytes();
    assert_eq!(outside::portion_null(&file, &Q, 0), refused(16, 0));
    assert_eq!(outside::portion_null(&file, &Q, 1), refused(16, 0));
    assert_eq!(outside::portion_null(&[], &Q, 1), refused(1, 0));
    let mut out = untouched(30);
    let told = outside::portion_null_bookmark(&file, &Q, &mut out);
    assert_eq!((told, out), (listed(3, true), cells_of(&[A, B, C], 30)));
}

// The order of refusals.

/// Ranks a portion's wrongs: the question's faults but the extra person's, then 16, then 17.
#[test]
fn every_refusal_before_those_that_follow() {
    let shape = files::six_persons();
    let file = shape.bytes();
    for (question, refusal) in faulty_questions() {
        let asked = Asked::new(file.clone(), question);
        for (started, bookmark, cells) in [(0, &[][..], 30), (1, &record(A), 30), (1, &[7], 9)] {
            let (answer, _) = asked.portion(started, bookmark, cells);
            assert_eq!(answer, Err(refusal), "{question:?}");
        }
    }
    for fault in catalogue(&shape) {
        let changed = with_faults(&file, &[&fault]);
        let wrong = Question { from: 9, ..Q };
        for (question, started, cells) in [(Q, 0, 30), (Q, 1, 9), (wrong, 1, 9), (wrong, 0, 30)] {
            let asked = Asked::new(changed.clone(), question);
            assert_eq!(asked.portion(started, &[1], cells).0, Err(fault.refusal));
        }
    }
}

#[test]
fn sixteen_comes_before_seventeen() {
    let asked = Asked::six_persons(Q);
    for cells in 0..10 {
        for bookmark in [&[][..], &record(A), &[3; 10], &[0; 11]] {
            assert_eq!(asked.portion(1, bookmark, cells).0, refused(16, 0));
        }
    }
    assert_eq!(asked.portion(1, &[3; 10], 10).0, refused(17, 0));
}

#[test]
fn windows_and_meanings_are_the_questions() {
    let mut random = Random::of_test("windows_and_meanings_are_the_questions");
    let file = files::six_persons();
    for _ in 0..3_000 {
        let day = |random: &mut Random| {
            let near = 699_999 + 50 * random.below(12) as u32 + random.below(3) as u32;
            random.one_of(&[1, LAST_DAY, near, near, near])
        };
        let (one, other) = (day(&mut random), day(&mut random));
        let question = Question {
            first_day: one.min(other),
            last_day: one.max(other),
            ..random_question(&mut random, 6)
        };
        Asked::new(file.bytes(), question).by_rooms(&[2]);
    }
}
