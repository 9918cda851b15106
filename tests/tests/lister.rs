//! The independent lister held against the listings the customer states for the six-person file, and against small
//! graphs whose chains can be seen by eye; the lister of rings against the same file's rings found by hand, and against
//! the rule tried on every sequence of persons. The library isn't asked here: this says that what it is compared with is
//! right.

use independent::checker::{refused, LAST_DAY};
use independent::files::{self, graph_of_number};
use independent::lister::{
    fewest, half_chains, held_of, listing, listing_by_hops, question_held, record, stored_of,
    Chain, Question,
};
use independent::questions::{random_question, Q, Q_HELD, Q_STORED, R, R_RINGS};
use independent::random::Random;
use independent::ring_lister::{self, rings};
use independent::rules::{is_ring, rings_by_rule};

fn lists(question: Question, chains: &[&[u32]]) {
    let file = files::six_persons().bytes();
    let told = listing(&file, &question).expect("the question passes");
    assert_eq!(told, chains, "{question:?}");
}

fn refuses(question: Question, number: u32, place: u32) {
    let file = files::six_persons().bytes();
    assert_eq!(listing(&file, &question), refused(number, place));
}

#[test]
#[rustfmt::skip]
fn the_stated_listings_of_the_six_person_file() {
    let (a, b, c): (&[u32], &[u32], &[u32]) = (&[0, 1, 3, 5], &[0, 2, 1, 3, 5], &[0, 2, 3, 5]);
    lists(Q, &[a, b, c]);
    lists(Question { hops: 8, ..Q }, &[a, b, c]);
    lists(Question { hops: 3, ..Q }, &[a, c]);
    lists(Question { hops: 2, ..Q }, &[]);
    lists(Question { classes: 1, ..Q }, &[a]);
    lists(Question { meaning: 2, ..Q }, &[]);
    lists(Question { first_day: 700_001, ..Q }, &[b, c]);
    lists(Question { last_day: 700_400, ..Q }, &[a, b, c]);
    lists(Question { last_day: 700_399, ..Q }, &[]);
    lists(Question { first_day: 700_001, undated: 0, ..Q }, &[]);
    // The link from 0 to 2 has no day, and all of (0 1 3 5) has.
    lists(Question { undated: 0, ..Q }, &[a]);
}

#[test]
#[rustfmt::skip]
fn the_stated_refusals_of_questions() {
    refuses(Question { to: 6, ..Q }, 10, 1);
    refuses(Question { from: 6, to: 6, ..Q }, 10, 0);
    refuses(Question { from: 5, ..Q }, 11, 0);
    refuses(Question { hops: 0, ..Q }, 12, 0);
    refuses(Question { hops: 9, ..Q }, 12, 0);
    refuses(Question { classes: 0, ..Q }, 13, 0);
    refuses(Question { classes: 16, ..Q }, 13, 0);
    refuses(Question { meaning: 0, ..Q }, 14, 0);
    refuses(Question { meaning: 3, ..Q }, 14, 0);
    refuses(Question { first_day: 0, ..Q }, 15, 0);
    refuses(Question { last_day: LAST_DAY + 1, ..Q }, 15, 0);
    refuses(Question { first_day: 9, last_day: 8, ..Q }, 15, 0);
    refuses(Question { undated: 2, ..Q }, 20, 0);
    refuses(Question { undated: u32::MAX, ..Q }, 20, 0);
    refuses(Question { last_day: 0, undated: 2, ..Q }, 15, 0);
}

#[test]
fn small_graphs() {
    type Case<'a> = (usize, &'a [(u32, u32)], u32, &'a [&'a [u32]]);
    let cases: [Case; 4] = [
        (
            5,
            &[(0, 1), (0, 2), (1, 3), (1, 4), (2, 3), (3, 1)],
            4,
            &[&[0, 1, 4], &[0, 2, 3, 1, 4]],
        ),
        (
            4,
            &[(0, 1), (0, 2), (1, 3), (2, 1)],
            3,
            &[&[0, 1, 3], &[0, 2, 1, 3]],
        ),
        (
            5,
            &[(0, 1), (0, 3), (1, 2), (1, 3), (2, 4), (3, 1), (3, 2)],
            4,
            &[
                &[0, 1, 2, 4],
                &[0, 1, 3, 2, 4],
                &[0, 3, 1, 2, 4],
                &[0, 3, 2, 4],
            ],
        ),
        (2, &[(0, 1)], 1, &[&[0, 1]]),
    ];
    for (persons, pairs, hops, chains) in cases {
        let file = files::undated(persons, pairs).bytes();
        let to = persons as u32 - 1;
        let question = Question { to, hops, ..Q };
        assert_eq!(listing(&file, &question).expect("it passes"), chains);
    }
}

#[test]
fn fewest_hops_of_the_six_person_file() {
    let file = files::six_persons().bytes();
    let of = |hops, person| fewest(&file, &Question { hops, ..Q }, person);
    let all: Vec<_> = (0..6).map(|person| of(4, person)).collect();
    assert_eq!(all, [Ok(3), Ok(2), Ok(2), Ok(1), Ok(1), Ok(0)]);
    assert_eq!(of(2, 0), Ok(3));
    assert_eq!(of(1, 0), Ok(2));
    assert_eq!(of(4, 6), refused(10, 2));
    // 10 at place 2 comes before 11 and 12.
    let same = Question {
        from: 5,
        hops: 0,
        ..Q
    };
    assert_eq!(fewest(&file, &same, 6), refused(10, 2));
    assert_eq!(fewest(&file, &same, 0), refused(11, 0));
    // From 5 leads an undated link only, and to 2 one from 0 that is undated, and one from 3.
    let to_2 = |undated, person| {
        let question = Question {
            to: 2,
            undated,
            ..Q
        };
        fewest(&file, &question, person)
    };
    let all = |undated| (0..6).map(move |person| to_2(undated, person).expect("it passes"));
    assert!(all(1).eq([1, 2, 0, 1, 3, 2]));
    assert!(all(0).eq([3, 2, 0, 1, 5, 5]));
    assert_eq!(to_2(2, 0), refused(20, 0));
    assert_eq!(to_2(2, 6), refused(10, 2));
}

#[test]
fn records_have_ten_cells() {
    assert_eq!(record(&[0, 5]), [1, 0, 5, 0, 0, 0, 0, 0, 0, 0]);
    let longest: Vec<u32> = (1..10).collect();
    assert_eq!(record(&longest), [8, 1, 2, 3, 4, 5, 6, 7, 8, 9]);
}

#[test]
fn the_stated_half_chains_of_the_six_person_file() {
    let file = files::six_persons().bytes();
    let halves = |hops| half_chains(&file, &Question { hops, ..Q }).expect("the question passes");
    let stated: [&[u32]; 5] = [&[5], &[3, 5], &[4, 5], &[1, 3, 5], &[2, 3, 5]];
    assert_eq!(halves(1), stated[..1]);
    assert_eq!(halves(2), stated[..3]);
    assert_eq!(halves(3), stated[..3]);
    assert_eq!(halves(4), stated);
    assert_eq!(halves(5), stated);
}

/// Held in 18 cells a question has seven numbers, and undated links count; in 19 it has its own.
#[test]
fn the_question_of_a_held_listing() {
    assert_eq!(question_held(&Q_HELD), Q);
    assert_eq!(question_held(&Q_STORED), Q);
    let left_out = Question { undated: 0, ..Q };
    assert_eq!(question_held(&held_of(&left_out, 1, &[9; 10])), left_out);
    assert_eq!(question_held(&stored_of(&left_out, 1, &[9; 10])), Q);
}

/// Every chain is met at one split only: the left half of its hops, rounded up, and a half chain from there.
#[test]
fn half_chains_join_to_the_listing_by_hops() {
    let file = files::six_persons().bytes();
    for hops in 1..=8 {
        let question = Question { hops, ..Q };
        let chains = listing_by_hops(&file, &question).expect("the question passes");
        let halves = half_chains(&file, &question).expect("the question passes");
        for chain in &chains {
            let middle = chain.len() / 2;
            let met: Vec<&Chain> = halves
                .iter()
                .filter(|half| half[..] == chain[middle..])
                .collect();
            assert_eq!(met.len(), 1, "{chain:?}");
        }
    }
    let by_hops = listing_by_hops(&file, &Q).expect("the question passes");
    assert_eq!(
        by_hops,
        [vec![0, 1, 3, 5], vec![0, 2, 3, 5], vec![0, 2, 1, 3, 5]]
    );
}

// Rings.

#[test]
#[rustfmt::skip]
fn the_rings_of_the_six_person_file() {
    let file = files::six_persons().bytes();
    let lists = |question: Question, stated: &[&[u32]]| {
        let told = rings(&file, &question).expect("the question passes");
        assert_eq!(told, stated, "{question:?}");
    };
    let [a, b, c, d] = R_RINGS;
    lists(R, &[a, b, c, d]);
    lists(Question { hops: 8, ..R }, &[a, b, c, d]);
    lists(Question { hops: 4, ..R }, &[a, c, d]);
    lists(Question { hops: 3, ..R }, &[a, c]);
    lists(Question { hops: 2, ..R }, &[c]);
    lists(Question { hops: 1, ..R }, &[]);
    lists(Question { undated: 0, ..R }, &[a, c]);
    lists(Question { from: 4, to: 4, ..R }, &[]);
}

#[test]
#[rustfmt::skip]
fn the_refusals_of_rings() {
    let file = files::six_persons().bytes();
    let refuses = |question: Question, number, place| {
        assert_eq!(rings(&file, &question), refused(number, place), "{question:?}");
    };
    refuses(Question { from: 6, to: 6, ..R }, 10, 0);
    refuses(Question { from: 6, ..R }, 10, 0);
    refuses(Question { to: 6, ..R }, 10, 1);
    refuses(Question { from: 1, ..R }, 21, 0);
    refuses(Question { to: 1, hops: 0, ..R }, 21, 0);
    refuses(Question { hops: 0, ..R }, 12, 0);
    refuses(Question { classes: 16, ..R }, 13, 0);
    refuses(Question { meaning: 3, ..R }, 14, 0);
    refuses(Question { first_day: 0, undated: 2, ..R }, 15, 0);
    refuses(Question { undated: 2, ..R }, 20, 0);
    assert_eq!(rings(&file[..187], &Question { to: 1, ..R }), refused(3, 0));
}

/// The rule says yes to nothing but these, whatever else is nearly one.
#[test]
fn the_rule_of_a_ring() {
    let shape = files::six_persons();
    let holds = |sequence: &[u32]| is_ring(&shape, &R, sequence);
    assert!(R_RINGS.iter().all(|ring| holds(ring)));
    let wrong: [&[u32]; 10] = [
        &[],
        &[2],
        &[2, 2],
        &[2, 3],
        &[3, 2, 3],                // of another person
        &[2, 3, 5, 0],             // not closed
        &[2, 3, 2, 3, 2],          // passes through the person
        &[2, 0, 5, 3, 2],          // the other way round
        &[2, 1, 4, 5, 0, 2],       // over a link that is not admitted
        &[2, 1, 3, 5, 0, 1, 3, 2], // persons twice, and too long
    ];
    assert!(wrong.iter().all(|sequence| !holds(sequence)));
    assert!(!is_ring(&shape, &Question { hops: 4, ..R }, R_RINGS[1]));
    // There and back, twice: only the person stands in the middle, and nobody else twice.
    let star = files::undated(3, &[(0, 2), (1, 2), (2, 0), (2, 1)]);
    assert!(is_ring(&star, &R, &[2, 0, 2]));
    assert!(!is_ring(&star, &R, &[2, 0, 2, 1, 2]));
}

#[test]
fn the_lister_of_rings_keeps_the_rule() {
    for graph in 0..1 << 12 {
        let shape = graph_of_number(4, graph);
        let question = Question {
            hops: 1 + graph % 8,
            from: graph / 8 % 4,
            to: graph / 8 % 4,
            ..Q
        };
        let told = rings(&shape.bytes(), &question).expect("the question passes");
        assert_eq!(told, rings_by_rule(&shape, &question), "{graph}");
    }
    let mut random = Random::of_test("the_lister_of_rings_keeps_the_rule");
    let mut with_rings = 0;
    for _ in 0..4_000 {
        let shape = files::random_file(&mut random, 6);
        let mut question = random_question(&mut random, shape.persons().max(2));
        question.from %= shape.persons() as u32;
        question.to = question.from;
        let told = rings(&shape.bytes(), &question).expect("the question passes");
        assert_eq!(told, rings_by_rule(&shape, &question), "{shape:?}");
        with_rings += usize::from(told.len() > 1);
    }
    assert!(with_rings > 100, "{with_rings}");
}

#[test]
fn the_ring_that_follows() {
    let file = files::everybody_linked(5).bytes();
    for hops in 2..=8 {
        let question = Question { hops, ..R };
        let all = rings(&file, &question).expect("the question passes");
        for (place, ring) in all.iter().enumerate() {
            let next = ring_lister::following(&file, &question, ring);
            assert_eq!(next.as_ref(), all.get(place + 1));
        }
    }
}
