//! Rings of one person, through `kin_rings`, against the brute-force lister: answer and every output cell.
//!
//! Covers: every ring of the six-person file, written down by hand from its links; hops 1; both directions; rings of two
//! hops; undated links; the rule tried on every sequence of persons; a person's second self, which makes rings chains;
//! graphs on which wrong pruning loses rings, fresh and resumed at every ring; a large dead region; outputs of every
//! length; splits; random and largest files; listings too long to write down. Bookmarks are in `rings_bookmarks.rs`,
//! refusals in `rings_refusals.rs`, all graphs of four persons in `rings_exhaustive.rs`.

use independent::asked::{cells_of, Asked};
use independent::checker::refused;
use independent::files::{self, random_graph, LinkFile};
use independent::lent::{untouched, VastTail};
use independent::lister::{listed, record, Listed, Question};
use independent::outside;
use independent::questions::{random_question, Q, R, R_RINGS};
use independent::random::Random;
use independent::ring_lister::{following, Ring};
use independent::rules::rings_by_rule;

/// Of this person, in at most so many hops, all links admitted but those whose day has the other meaning.
fn of(person: u32, hops: u32) -> Question {
    Question {
        from: person,
        to: person,
        hops,
        ..Q
    }
}

/// A random question that passes over `n` persons, one of them at both ends.
fn random_ring_question(random: &mut Random, n: usize) -> Question {
    let question = random_question(random, n.max(2));
    let person = question.from % n as u32;
    Question {
        from: person,
        to: person,
        ..question
    }
}

// The six-person file.

/// A question about the six-person file whose rings are stated.
fn lists(question: Question, rings: &[&[u32]]) {
    let asked = Asked::six_persons(question);
    let (answer, out) = asked.ring_portion(0, &[], 65);
    assert_eq!(answer, listed(rings.len() as u64, true), "{question:?}");
    assert_eq!(out, cells_of(rings, 65), "{question:?}");
    asked.everything_of_rings();
    asked.rings_by_rooms(&[]);
}

/// With Q's classes, meaning and window the links are 0 to 1 and 2, 1 to 3, 2 to 1 and 3, 3 to 2 and 5, 4 to 5, 5 to 0: that
/// from 1 to 4 has the other meaning, so that nobody comes to 4.
#[test]
fn every_ring_of_the_six_person_file() {
    let rings: [(u32, &[&[u32]]); 6] = [
        (
            0,
            &[&[0, 1, 3, 5, 0], &[0, 2, 1, 3, 5, 0], &[0, 2, 3, 5, 0]],
        ),
        (1, &[&[1, 3, 2, 1], &[1, 3, 5, 0, 1], &[1, 3, 5, 0, 2, 1]]),
        (2, &R_RINGS),
        (
            3,
            &[
                &[3, 2, 1, 3],
                &[3, 2, 3],
                &[3, 5, 0, 1, 3],
                &[3, 5, 0, 2, 1, 3],
                &[3, 5, 0, 2, 3],
            ],
        ),
        (4, &[]),
        (
            5,
            &[&[5, 0, 1, 3, 5], &[5, 0, 2, 1, 3, 5], &[5, 0, 2, 3, 5]],
        ),
    ];
    for (person, all) in rings {
        for hops in 1..=8 {
            let short_enough = |ring: &&&[u32]| ring.len() <= hops as usize + 1;
            let rings: Vec<&[u32]> = all.iter().filter(short_enough).copied().collect();
            lists(of(person, hops), &rings);
        }
    }
}

#[test]
#[rustfmt::skip]
fn person_2_hop_by_hop() {
    let [a, b, c, d] = R_RINGS;
    lists(of(2, 1), &[]);
    lists(of(2, 2), &[c]);
    lists(of(2, 3), &[a, c]);
    lists(of(2, 4), &[a, c, d]);
    for hops in 5..=8 {
        lists(of(2, hops), &[a, b, c, d]);
    }
    let cells = [
        3, 2, 1, 3, 2, 0, 0, 0, 0, 0,
        5, 2, 1, 3, 5, 0, 2, 0, 0, 0,
        2, 2, 3, 2, 0, 0, 0, 0, 0, 0,
        4, 2, 3, 5, 0, 2, 0, 0, 0, 0,
    ];
    let (answer, out) = Asked::six_persons(R).ring_portion(0, &[], 40);
    assert_eq!((answer, &out[..]), (listed(4, true), &cells[..]));
}

#[test]
#[rustfmt::skip]
fn classes_windows_meanings_and_undated_links() {
    let [a, b, c, d] = R_RINGS;
    // 0 to 2 is between spouses, and without it person 2 is reached from 3 only.
    lists(Question { classes: 1, ..R }, &[a, c]);
    lists(Question { classes: 2, ..R }, &[]);
    lists(Question { classes: 1, ..of(0, 4) }, &[&[0, 1, 3, 5, 0]]);
    lists(Question { classes: 3, ..R }, &[a, b, c, d]);
    // 2 to 1 is of day 700,050, 1 to 3 of 700,100, 3 to 5 of 700,400; 2 to 3 and back are of 700,300.
    lists(Question { first_day: 700_050, ..R }, &[a, b, c, d]);
    lists(Question { first_day: 700_051, ..R }, &[c, d]);
    lists(Question { first_day: 700_301, ..R }, &[]);
    lists(Question { last_day: 700_400, ..R }, &[a, b, c, d]);
    lists(Question { last_day: 700_399, ..R }, &[a, c]);
    lists(Question { last_day: 700_299, ..R }, &[]);
    lists(Question { first_day: 700_300, last_day: 700_300, ..R }, &[c]);
    lists(Question { meaning: 2, ..R }, &[]);
    // 0 to 2 and 5 to 0 are undated.
    lists(Question { undated: 0, ..R }, &[a, c]);
    lists(Question { undated: 0, ..of(0, 8) }, &[]);
    lists(Question { undated: 0, ..of(1, 8) }, &[&[1, 3, 2, 1]]);
    lists(Question { undated: 0, ..of(3, 8) }, &[&[3, 2, 1, 3], &[3, 2, 3]]);
}

#[test]
fn portions_of_the_rings_of_person_2() {
    let [a, b, c, d] = R_RINGS;
    let asked = Asked::six_persons(R);
    let (answer, out) = asked.ring_portion(0, &[], 20);
    assert_eq!((answer, out), (listed(2, false), cells_of(&[a, b], 20)));
    let (answer, out) = asked.ring_portion(1, &record(b), 20);
    assert_eq!((answer, out), (listed(2, true), cells_of(&[c, d], 20)));
    let (answer, out) = asked.ring_portion(1, &record(a), 29);
    assert_eq!((answer, out), (listed(2, false), cells_of(&[b, c], 29)));
    let (answer, out) = asked.ring_portion(1, &record(d), 29);
    assert_eq!((answer, out), (listed(0, true), untouched(29)));
}

/// Rings are not asked of the other operations, nor chains of this one.
#[test]
fn rings_and_chains_are_asked_apart() {
    for from in 0..6 {
        for to in 0..6 {
            for hops in 1..=8 {
                let question = Question {
                    to,
                    ..of(from, hops)
                };
                let asked = Asked::six_persons(question);
                if from == to {
                    assert!(asked.ring_portion(0, &[], 60).0.is_ok());
                    asked.no_chain_comes_back();
                } else {
                    assert!(asked.portion(0, &[], 60).0.is_ok());
                    asked.no_ring_between_two();
                }
            }
        }
    }
}

// Hops and directions.

#[test]
fn one_hop_lists_nothing_and_is_ended() {
    let shapes = [
        files::six_persons(),
        files::one_person(),
        files::everybody_linked(6),
    ];
    for shape in shapes {
        for person in 0..shape.persons() as u32 {
            let asked = Asked::new(shape.bytes(), of(person, 1));
            for cells in [10, 29, 100] {
                let told = asked.ring_portion(0, &[], cells);
                assert_eq!(told, (listed(0, true), untouched(cells)));
            }
            // So nothing can be a bookmark.
            for bookmark in [record(&[person, person]), record(&[person, 0, person])] {
                let told = asked.ring_portion(1, &bookmark, 10);
                assert_eq!(told, (refused(17, 0), untouched(10)));
            }
        }
    }
}

#[test]
fn one_person_alone_has_no_ring() {
    for hops in 1..=8 {
        let asked = Asked::new(files::one_person().bytes(), of(0, hops));
        assert_eq!(asked.ring_portion(0, &[], 10).0, listed(0, true));
        assert_eq!(
            Asked::new(asked.file, of(1, hops))
                .ring_portion(0, &[], 10)
                .0,
            refused(10, 0)
        );
    }
}

fn lists_of_graph(persons: usize, pairs: &[(u32, u32)], question: Question, rings: &[&[u32]]) {
    let asked = Asked::new(files::undated(persons, pairs).bytes(), question);
    assert_eq!(asked.rings(), rings);
    asked.everything_of_rings();
    asked.rings_by_rooms(&[]);
}

#[test]
fn both_directions_are_two_rings() {
    let pairs = [(0, 1), (1, 0), (1, 2), (2, 1), (2, 0), (0, 2)];
    let all: [&[u32]; 4] = [&[0, 1, 0], &[0, 1, 2, 0], &[0, 2, 0], &[0, 2, 1, 0]];
    lists_of_graph(3, &pairs, of(0, 3), &all);
    lists_of_graph(3, &pairs, of(0, 2), &[all[0], all[2]]);
    // Where the links go one way only there is one.
    lists_of_graph(3, &[(0, 1), (1, 2), (2, 0)], of(0, 8), &[&[0, 1, 2, 0]]);
    lists_of_graph(3, &[(0, 2), (2, 1), (1, 0)], of(0, 8), &[&[0, 2, 1, 0]]);
}

#[test]
fn two_hops_there_and_back() {
    lists_of_graph(2, &[(0, 1), (1, 0)], of(0, 8), &[&[0, 1, 0]]);
    lists_of_graph(2, &[(0, 1), (1, 0)], of(1, 2), &[&[1, 0, 1]]);
    lists_of_graph(2, &[(0, 1)], of(0, 8), &[]);
    lists_of_graph(2, &[(1, 0)], of(0, 8), &[]);
    // A star: there and back to each, and never on from one to the next through the middle.
    let star: Vec<(u32, u32)> = (1..6).flat_map(|other| [(0, other), (other, 0)]).collect();
    let rings: [&[u32]; 5] = [&[0, 1, 0], &[0, 2, 0], &[0, 3, 0], &[0, 4, 0], &[0, 5, 0]];
    lists_of_graph(6, &star, of(0, 8), &rings);
    lists_of_graph(6, &star, of(3, 8), &[&[3, 0, 3]]);
}

#[test]
fn rings_of_exactly_k_hops() {
    for hops in 2..=8 {
        let mut pairs: Vec<(u32, u32)> = (0..hops - 1).map(|one| (one, one + 1)).collect();
        pairs.push((hops - 1, 0));
        for person in 0..hops {
            let ring: Ring = (0..=hops).map(|hop| (person + hop) % hops).collect();
            lists_of_graph(hops as usize, &pairs, of(person, hops), &[&ring]);
            lists_of_graph(hops as usize, &pairs, of(person, hops - 1), &[]);
        }
        // One person more is one hop too many.
        let mut longer = pairs[..pairs.len() - 1].to_vec();
        longer.extend([(hops - 1, hops), (hops, 0)]);
        lists_of_graph(hops as usize + 1, &longer, of(0, hops), &[]);
    }
}

// Graphs on which pruning goes wrong easily: those of the chains, with their end made their beginning.

#[test]
fn a_barrier_outlives_the_ring_it_depended_on() {
    let pairs = [(0, 1), (0, 2), (1, 3), (1, 0), (2, 3), (3, 1)];
    lists_of_graph(4, &pairs, of(0, 4), &[&[0, 1, 0], &[0, 2, 3, 1, 0]]);
}

#[test]
fn a_person_left_without_a_new_ring_had_one_before_the_bookmark() {
    let pairs = [(0, 1), (0, 2), (1, 0), (2, 1)];
    lists_of_graph(3, &pairs, of(0, 3), &[&[0, 1, 0], &[0, 2, 1, 0]]);
}

#[test]
fn the_shortest_way_back_lies_in_a_skipped_branch() {
    let pairs = [(0, 1), (0, 3), (1, 2), (1, 3), (2, 0), (3, 1), (3, 2)];
    let rings: [&[u32]; 4] = [
        &[0, 1, 2, 0],
        &[0, 1, 3, 2, 0],
        &[0, 3, 1, 2, 0],
        &[0, 3, 2, 0],
    ];
    lists_of_graph(4, &pairs, of(0, 4), &rings);
}

#[test]
fn a_person_is_entered_again_with_one_hop_more() {
    // 4 fails under 3 and 1 with two hops left, since its short way goes back over 3; with three hops it has another.
    let pairs = [
        (0, 3),
        (1, 4),
        (2, 0),
        (3, 1),
        (3, 4),
        (3, 0),
        (4, 3),
        (4, 5),
        (5, 2),
    ];
    lists_of_graph(6, &pairs, of(0, 5), &[&[0, 3, 0], &[0, 3, 4, 5, 2, 0]]);
}

#[test]
fn a_large_dead_region() {
    // 0, then b, then 62 persons all linked with each other and back to b, then c and back: one ring.
    let (b, c) = (1, 64);
    let mut pairs = vec![(0, b), (b, c), (c, 0)];
    for person in 2..64 {
        pairs.extend([(b, person), (person, b)]);
        let others = (2..64).filter(|&other| other != person);
        pairs.extend(others.map(|other| (person, other)));
    }
    let file = files::undated(65, &pairs).bytes();
    let ring = [0, b, c, 0];
    for room in [1, 2] {
        let mut out = untouched(10 * room);
        let told = outside::rings(&file, &of(0, 8), 0, &[], &mut out);
        assert_eq!(
            (told, out),
            (listed(1, true), cells_of(&[&ring], 10 * room))
        );
    }
    let mut out = untouched(10);
    let told = outside::rings(&file, &of(0, 8), 1, &record(&ring), &mut out);
    assert_eq!((told, out), (listed(0, true), untouched(10)));
}

// Rules of their own.

#[test]
fn the_rule_tried_on_every_sequence_of_persons() {
    let mut random = Random::of_test("the_rule_tried_on_every_sequence_of_persons");
    let mut with_rings = 0;
    for _ in 0..4_000 {
        let shape = files::random_file(&mut random, 6);
        let question = random_ring_question(&mut random, shape.persons());
        let right = rings_by_rule(&shape, &question);
        let rings: Vec<&[u32]> = right.iter().map(Vec::as_slice).collect();
        let cells = 10 * rings.len() + 13;
        let told = Asked::new(shape.bytes(), question).ring_portion(0, &[], cells);
        let all = listed(rings.len() as u64, true);
        assert_eq!(told, (all, cells_of(&rings, cells)), "{shape:?}");
        with_rings += usize::from(rings.len() > 1);
    }
    assert!(with_rings > 150, "{with_rings}");
}

/// The file with one more person, the second self: who was linked to the person is now linked to that one instead.
fn with_second_self(shape: &LinkFile, person: u32) -> LinkFile {
    let second = shape.persons() as u32;
    let mut split = shape.clone();
    for row in &mut split.rows {
        for link in row.iter_mut().filter(|link| link.target == person) {
            link.target = second;
        }
        row.sort_by_key(|link| link.target);
    }
    split.rows.push(vec![]);
    split
}

/// A chain to the second self is a ring, and the other way round. Only their order may differ.
#[test]
fn rings_are_the_chains_to_a_second_self() {
    let mut random = Random::of_test("rings_are_the_chains_to_a_second_self");
    let mut with_rings = 0;
    for _ in 0..4_000 {
        let shape = files::random_file(&mut random, 6);
        let question = random_ring_question(&mut random, shape.persons());
        let (person, second) = (question.from, shape.persons() as u32);
        let mut rings = untouched(4_000);
        let told = outside::rings(&shape.bytes(), &question, 0, &[], &mut rings);
        let split = with_second_self(&shape, person).bytes();
        let to_second = Question {
            to: second,
            ..question
        };
        let mut chains = untouched(4_000);
        let right = outside::portion(&split, &to_second, 0, &[], &mut chains);
        assert_eq!(told, right, "{shape:?}");
        let Listed { count, ended } = told.expect("the question passes");
        assert!(ended);
        let mut closed = of_records(&chains, count);
        for chain in &mut closed {
            *chain.last_mut().expect("a chain has persons") = person;
        }
        closed.sort();
        assert_eq!(of_records(&rings, count), closed, "{shape:?}");
        with_rings += usize::from(count > 1);
    }
    assert!(with_rings > 150, "{with_rings}");
}

/// The persons of so many records.
fn of_records(cells: &[u32], count: u64) -> Vec<Ring> {
    let records = cells.chunks(10).take(count as usize);
    records
        .map(|record| record[1..record[0] as usize + 2].to_vec())
        .collect()
}

/// With 1 the undated links count, with 0 the file is as if they were taken out.
#[test]
fn undated_links_admitted_or_left_out() {
    let mut random = Random::of_test("undated_links_admitted_or_left_out");
    let (mut fewer, mut left) = (0, 0);
    for _ in 0..3_000 {
        let shape = files::random_file(&mut random, 6).dated(|_| random.one_of(&[0, 700_000]));
        let question = Question {
            classes: 15,
            first_day: 1,
            ..random_ring_question(&mut random, shape.persons())
        };
        let taken_out = shape.clone().keeping(|link| link.day != 0);
        let told = |shape: &LinkFile, undated| {
            let question = Question {
                undated,
                ..question
            };
            Asked::new(shape.bytes(), question).ring_portion(0, &[], 4_000)
        };
        let (with_0, with_1) = (told(&shape, 0), told(&shape, 1));
        assert_eq!(with_0, told(&taken_out, 1), "{shape:?}");
        assert_eq!(with_0, told(&taken_out, 0), "{shape:?}");
        let count = |answer: &(Result<Listed, _>, Vec<u32>)| answer.0.map_or(0, |all| all.count);
        fewer += usize::from(count(&with_0) < count(&with_1));
        left += usize::from(count(&with_0) > 0);
    }
    assert!(fewer > 300 && left > 100, "{fewer} {left}");
}

// Output.

#[test]
fn outputs_of_every_length() {
    let asked = Asked::six_persons(R);
    for cells in 0..=64 {
        let (answer, _) = asked.ring_portion(0, &[], cells);
        assert_eq!(answer.is_err(), cells < 10);
        for ring in R_RINGS {
            let _ = asked.ring_portion(1, &record(ring), cells);
        }
    }
    let (answer, _) = asked.ring_portion(0, &[], 100_000);
    assert_eq!(answer, listed(4, true));
}

/// Nine cells more than 32 bits count are room for any number of rings.
#[test]
fn an_output_of_more_than_32_bits_of_cells() {
    let file = files::six_persons().bytes();
    let came: Vec<u8> = untouched(109)
        .iter()
        .flat_map(|cell| cell.to_le_bytes())
        .collect();
    let vast = VastTail::opened(&came, (4 << 32) - 4 * 100);
    let told = outside::rings_vast_output(&file, &R, &vast);
    assert_eq!(told, listed(4, true));
    assert_eq!(vast.first::<u32>(109), cells_of(&R_RINGS, 109));
}

#[test]
fn no_elements_at_the_null_pointer() {
    let file = files::six_persons().bytes();
    for started in [0, 1] {
        assert_eq!(outside::rings_null(&file, &R, started), refused(16, 0));
        assert_eq!(outside::rings_null(&[], &R, started), refused(1, 0));
        assert_eq!(outside::rings_null(&file, &Q, started), refused(21, 0));
    }
    let mut out = untouched(40);
    let told = outside::rings_null_bookmark(&file, &R, 0, &mut out);
    assert_eq!((told, out), (listed(4, true), cells_of(&R_RINGS, 40)));
    let mut out = untouched(40);
    let told = outside::rings_null_bookmark(&file, &R, 1, &mut out);
    assert_eq!((told, out), (refused(17, 0), untouched(40)));
    let mut out = untouched(40);
    let told = outside::rings_null_file(&R, &mut out);
    assert_eq!((told, out), (refused(1, 0), untouched(40)));
}

// Splits, random files.

#[test]
fn random_splits() {
    let mut random = Random::of_test("random_splits");
    let mut longest = 0;
    for _ in 0..60 {
        let persons = random.between(4, 7);
        let parts = random.between(3, 10);
        let file = random_graph(&mut random, persons, parts).bytes();
        let person = random.below(persons) as u32;
        let asked = Asked::new(file, of(person, random.between(2, 8) as u32));
        longest = longest.max(asked.rings().len());
        let most = random.one_of(&[3, 20, 200]);
        let rooms: Vec<usize> = (0..2_000).map(|_| random.between(1, most)).collect();
        asked.rings_by_rooms(&rooms);
    }
    assert!(longest > 300, "{longest}");
}

#[test]
fn random_questions_over_random_files() {
    let mut random = Random::of_test("random_questions_over_random_files");
    let mut with_rings = 0;
    for _ in 0..15_000 {
        let shape = files::random_file(&mut random, 7);
        let question = random_ring_question(&mut random, shape.persons());
        let asked = Asked::new(shape.bytes(), question);
        let cells = 10 * random.one_of(&[1, 2, 5, 30, 400]) + random.below(10);
        let _ = asked.ring_portion(0, &[], cells);
        let rings = asked.rings();
        with_rings += usize::from(!rings.is_empty());
        for _ in 0..rings.len().min(3) {
            let ring = &rings[random.below(rings.len())];
            let _ = asked.ring_portion(1, &record(ring), cells);
        }
    }
    assert!(with_rings > 1_500, "{with_rings}");
}

/// Resumed at every ring: random graphs, and families with links both ways, in which ways close and reopen more often.
#[test]
fn random_graphs_and_families_resumed_at_every_ring() {
    let mut random = Random::of_test("random_graphs_and_families_resumed_at_every_ring");
    for round in 0..10_000 {
        let persons = random.between(4, 9);
        let shape = if round % 2 == 0 {
            let parts = random.between(1, 4);
            random_graph(&mut random, persons, parts)
        } else {
            files::two_way_family(&mut random, persons)
        };
        let person = random.below(persons) as u32;
        let asked = Asked::new(shape.bytes(), of(person, random.between(2, 8) as u32));
        let cells = 10 * (asked.rings().len() + 1);
        let _ = asked.ring_portion(0, &[], cells);
        for ring in asked.rings().iter().step_by(1 + round % 2) {
            let _ = asked.ring_portion(1, &record(ring), cells);
        }
    }
}

// Large files.

#[test]
fn questions_over_largest_files() {
    let mut random = Random::of_test("questions_over_largest_files");
    let most = files::MOST_PERSONS as u32;
    // Links both ways to those one and seven numbers away, all around.
    let steps = [1, 7, most - 7, most - 1];
    let around = |person| steps.map(|step| (person, (person + step) % most));
    let pairs: Vec<(u32, u32)> = (0..most).flat_map(around).collect();
    let largest = files::undated(files::MOST_PERSONS, &pairs).bytes();
    for person in [0, 6, random.below(1_024) as u32, 1_023] {
        let asked = Asked::new(largest.clone(), of(person, 6));
        // There and back, round a square, round two of them.
        assert_eq!(asked.rings().len(), 4 + 8 + 24);
        asked.rings_once();
    }
    for _ in 0..10 {
        let question = random_ring_question(&mut random, files::MOST_PERSONS);
        let hops = question.hops.min(6);
        Asked::new(files::largest().bytes(), Question { hops, ..question }).rings_once();
    }
}

/// Asks for portions from a ring on, and for each record whether it is the ring that follows the one before.
fn follow(file: &[u8], question: &Question, start: &[u32], room: usize, portions: usize) {
    let mut last = start.to_vec();
    for _ in 0..portions {
        let mut out = untouched(10 * room);
        let told = outside::rings(file, question, 1, &record(&last), &mut out);
        let Ok(Listed { count, ended }) = told else {
            panic!("{last:?} is a ring: told {told:?}");
        };
        for i in 0..count as usize {
            let next = following(file, question, &last).expect("no more than there are");
            assert_eq!(out[10 * i..10 * i + 10], record(&next), "after {last:?}");
            last = next;
        }
        let end = 10 * count as usize;
        assert_eq!(out[end..], untouched(10 * room)[end..]);
        assert!(ended || count as usize == room);
        assert_eq!(ended, following(file, question, &last).is_none());
    }
}

#[test]
fn a_listing_too_long_to_write_down() {
    let mut random = Random::of_test("a_listing_too_long_to_write_down");
    // 2.8 * 10^12 rings.
    let file = files::everybody_linked(64).bytes();
    let mut out = untouched(10);
    let first = [31, 0, 1, 2, 3, 4, 5, 6, 31];
    let told = outside::rings(&file, &of(31, 8), 0, &[], &mut out);
    assert_eq!((told, &out[..]), (listed(1, false), &record(&first)[..]));
    follow(&file, &of(31, 8), &first, 40, 2);
    for _ in 0..12 {
        let ring = random_ring(&mut random, 8);
        follow(&file, &of(ring[0], 8), &ring, 7, 1);
    }
    // The very last rings.
    follow(&file, &of(0, 8), &[0, 63, 62, 61, 60, 59, 58, 56, 0], 5, 1);
    follow(
        &file,
        &of(31, 8),
        &[31, 63, 62, 61, 60, 59, 58, 57, 31],
        5,
        1,
    );
    follow(&file, &of(63, 8), &[63, 62, 61, 63], 5, 1);
}

/// Of any of 64 persons, over different others, 2 to `most_hops` hops.
fn random_ring(random: &mut Random, most_hops: usize) -> Ring {
    let mut persons: Vec<u32> = (0..64).collect();
    random.shuffle(&mut persons);
    persons.truncate(random.between(2, most_hops));
    persons.push(persons[0]);
    persons
}
