//! The join, through `kin_join`, against half chains and a listing by hops found by brute force: answer, every working
//! cell and every output cell.
//!
//! Covers: the cases stated for the six-person file; every question over it; hops 1 to 8; working cells exactly enough,
//! one short, far too few and more than enough; rooms short of the listing, exact and beyond it; no chain at all; half
//! chains that nobody reaches, that would visit From or that rest on undated links; random files and random graphs, also
//! with links both ways; the same chains as the portion hands over; all links between 64 persons. Sizes and refusals are
//! in `join_refusals.rs`. Each cell comes with a value of its own, and the file and the memory beside what is lent have to
//! stay as they came in every call.

use independent::asked::{as_they_came, cells_of, Asked};
use independent::files::{self, random_graph};
use independent::lent::untouched;
use independent::lister::{listed, listing_by_hops, Question};
use independent::outside;
use independent::questions::{first_to_last, random_question, A, B, C, Q};
use independent::random::Random;

/// The chains handed over with room for all of them.
fn joined_chains(asked: &Asked) -> Vec<Vec<u32>> {
    let (answer, _, out) = asked.join(asked.enough(), 10 * asked.chains().len() + 10);
    let count = answer.expect("enough of everything").count as usize;
    out.chunks(10).take(count).map(<[u32]>::to_vec).collect()
}

// The six-person file.

/// The half chains of P12.
const HALVES: [&[u32]; 5] = [&[5], &[3, 5], &[4, 5], &[1, 3, 5], &[2, 3, 5]];

#[test]
fn p12_fifty_working_cells_do() {
    let asked = Asked::six_persons(Q);
    for working in [50, 59, 60, 85] {
        let told = asked.join(working, 45);
        let right = (
            listed(3, true),
            cells_of(&HALVES, working),
            cells_of(&[A, C, B], 45),
        );
        assert_eq!(told, right);
    }
}

#[test]
fn p12_forty_nine_give_eighteen() {
    let asked = Asked::six_persons(Q);
    for working in 0..50 {
        asked.refuses_to_join(working, 45, 18, 0);
        asked.refuses_to_join(working, 10, 18, 0);
        asked.refuses_to_join(working, 9, 16, 0);
    }
}

#[test]
fn the_six_person_file_by_its_hops() {
    // Of three hops (2 1 3 5) is the only half chain that visits neither From nor anybody twice.
    let all: Vec<&[u32]> = HALVES.into_iter().chain([&[2, 1, 3, 5][..]]).collect();
    let half_chains = [1, 3, 3, 5, 5, 6, 6, 6];
    for (hops, count) in (1..=8).zip(half_chains) {
        let asked = Asked::six_persons(Question { hops, ..Q });
        let chains: &[&[u32]] = match hops {
            1 | 2 => &[],
            3 => &[A, C],
            _ => &[A, C, B],
        };
        let (working, cells) = (10 * count, 35);
        let right = (
            listed(chains.len() as u64, true),
            cells_of(&all[..count], working),
            cells_of(chains, cells),
        );
        assert_eq!(asked.join(working, cells), right, "{hops} hops");
        asked.refuses_to_join(working - 1, cells, 18, 0);
    }
}

#[test]
fn rooms_short_of_the_listing() {
    let asked = Asked::six_persons(Q);
    for (cells, chains, ended) in [
        (10, &[A][..], false),
        (19, &[A], false),
        (20, &[A, C], false),
        (29, &[A, C], false),
        (30, &[A, C, B], true),
        (400, &[A, C, B], true),
    ] {
        let right = (
            listed(chains.len() as u64, ended),
            cells_of(&HALVES, 50),
            cells_of(chains, cells),
        );
        assert_eq!(asked.join(50, cells), right);
    }
}

#[test]
fn every_question_over_the_six_person_file() {
    for from in 0..6 {
        for to in 0..6 {
            for hops in 0..=9 {
                for (classes, meaning) in [(15, 1), (15, 2), (1, 1), (7, 2)] {
                    let asked = Asked::six_persons(Question {
                        from,
                        to,
                        hops,
                        classes,
                        meaning,
                        ..Q
                    });
                    if asked.passes() {
                        asked.joined_around_the_bounds();
                    } else {
                        let _ = asked.join(100, 100);
                    }
                }
            }
        }
    }
}

#[test]
fn half_chains_that_rest_on_an_undated_link() {
    // To 0 leads one link only, from 5, and it is undated.
    let admitted = Question {
        from: 3,
        to: 0,
        ..Q
    };
    let halves: [&[u32]; 3] = [&[0], &[5, 0], &[4, 5, 0]];
    let asked = Asked::six_persons(admitted);
    let right = (
        listed(1, true),
        cells_of(&halves, 35),
        cells_of(&[&[3, 5, 0]], 25),
    );
    assert_eq!(asked.join(35, 25), right);
    asked.refuses_to_join(29, 25, 18, 0);
    let asked = Asked::six_persons(Question {
        undated: 0,
        ..admitted
    });
    for working in [10, 35] {
        let right = (
            listed(0, true),
            cells_of(&halves[..1], working),
            untouched(25),
        );
        assert_eq!(asked.join(working, 25), right);
    }
    asked.refuses_to_join(9, 25, 18, 0);
}

// Small graphs.

#[test]
fn half_chains_are_written_though_there_is_no_chain() {
    // Nobody can leave 0, and 1 is reached from 2 and 3 only.
    let file = files::undated(5, &[(1, 4), (2, 1), (3, 1), (3, 2)]).bytes();
    let halves: [&[u32]; 5] = [&[4], &[1, 4], &[2, 1, 4], &[3, 1, 4], &[3, 2, 1, 4]];
    for (hops, count) in [
        (1, 1),
        (2, 2),
        (3, 2),
        (4, 4),
        (5, 4),
        (6, 5),
        (7, 5),
        (8, 5),
    ] {
        let asked = Asked::new(file.clone(), first_to_last(5, hops));
        let told = asked.join(60, 25);
        let right = (
            listed(0, true),
            cells_of(&halves[..count], 60),
            untouched(25),
        );
        assert_eq!(told, right, "{hops} hops");
    }
}

#[test]
fn no_half_chain_visits_from() {
    // From 2 to 4: 0 and 1 reach 4 over 2 only, 3 by itself.
    let file = files::undated(5, &[(0, 2), (1, 0), (2, 3), (2, 4), (3, 2), (3, 4)]).bytes();
    for hops in 1..=8 {
        let question = Question {
            from: 2,
            to: 4,
            hops,
            ..Q
        };
        let asked = Asked::new(file.clone(), question);
        let halves: &[&[u32]] = if hops == 1 { &[&[4]] } else { &[&[4], &[3, 4]] };
        let chains: &[&[u32]] = if hops == 1 {
            &[&[2, 4]]
        } else {
            &[&[2, 4], &[2, 3, 4]]
        };
        let right = (
            listed(chains.len() as u64, true),
            cells_of(halves, 40),
            cells_of(chains, 40),
        );
        assert_eq!(asked.join(40, 40), right, "{hops} hops");
    }
}

#[test]
fn paths_of_every_number_of_hops() {
    for hops in 1..=8 {
        let persons = hops as usize + 1;
        let pairs: Vec<(u32, u32)> = (0..hops).map(|person| (person, person + 1)).collect();
        let file = files::undated(persons, &pairs).bytes();
        let chain: Vec<u32> = (0..=hops).collect();
        let asked = Asked::new(file.clone(), first_to_last(persons, hops));
        assert_eq!(asked.chains(), [chain]);
        assert_eq!(asked.enough(), 10 * (hops as usize / 2 + 1));
        asked.joined_around_the_bounds();
        if hops > 1 {
            let asked = Asked::new(file, first_to_last(persons, hops - 1));
            assert!(asked.chains().is_empty());
            asked.joined_around_the_bounds();
        }
    }
}

#[test]
fn halves_that_share_more_than_the_middle() {
    // Left (0 1 2 3) and right (3 1 5) share 1, left (0 2 1 3) and right (3 2 5) share 2.
    let pairs = [
        (0, 1),
        (0, 2),
        (1, 2),
        (2, 1),
        (1, 3),
        (2, 3),
        (3, 1),
        (3, 2),
        (1, 5),
        (2, 5),
        (3, 4),
        (4, 5),
    ];
    let file = files::undated(6, &pairs).bytes();
    for hops in 1..=8 {
        Asked::new(file.clone(), first_to_last(6, hops)).joined_around_the_bounds();
    }
}

// Random files.

#[test]
fn random_questions_over_random_files() {
    let mut random = Random::of_test("random_questions_over_random_files");
    let (mut with_chains, mut by_hops) = (0, [0; 9]);
    for _ in 0..8_000 {
        let asked = Asked::random(&mut random, 7);
        with_chains += usize::from(asked.chains().len() > 1);
        for chain in asked.chains() {
            by_hops[chain.len() - 1] += 1;
        }
        let spare = random.below(30);
        let cells = random.between(10, 10 * asked.chains().len() + 25);
        let _ = asked.join(asked.enough() + spare, cells);
        asked.refuses_to_join(asked.enough() - 1, cells, 18, 0);
    }
    assert!(with_chains > 300, "{with_chains}");
    assert!(by_hops[1..7].iter().all(|&count| count > 50), "{by_hops:?}");
}

#[test]
fn random_graphs_around_the_bounds() {
    let mut random = Random::of_test("random_graphs_around_the_bounds");
    for round in 0..3_000 {
        let persons = random.between(3, 9);
        let parts = random.between(1, 5);
        let file = random_graph(&mut random, persons, parts).bytes();
        Asked::new(file, first_to_last(persons, 1 + round % 8)).joined_around_the_bounds();
    }
}

#[test]
fn two_way_families() {
    let mut random = Random::of_test("two_way_families");
    for round in 0..2_000 {
        let persons = random.between(5, 11);
        let file = files::two_way_family(&mut random, persons).bytes();
        Asked::new(file, first_to_last(persons, 1 + round % 8)).joined_around_the_bounds();
    }
}

#[test]
fn from_and_to_anywhere() {
    let mut random = Random::of_test("from_and_to_anywhere");
    for _ in 0..3_000 {
        let persons = random.between(3, 8);
        let parts = random.between(2, 5);
        let file = random_graph(&mut random, persons, parts).bytes();
        let mut question = random_question(&mut random, persons);
        (question.classes, question.undated) = (15, 1);
        Asked::new(file, question).joined_around_the_bounds();
    }
}

#[test]
fn the_chains_of_the_portion() {
    let mut random = Random::of_test("the_chains_of_the_portion");
    let mut longest = 0;
    for round in 0..2_000 {
        let persons = random.between(4, 8);
        let parts = random.between(2, 9);
        let file = random_graph(&mut random, persons, parts).bytes();
        let asked = Asked::new(file, first_to_last(persons, 1 + round % 8));
        let count = asked.chains().len();
        longest = longest.max(count);
        let mut out = untouched(10 * count + 10);
        let told = outside::portion(&asked.file, &asked.question, 0, &[], &mut out);
        assert_eq!(told, listed(count as u64, true));
        let mut handed_over: Vec<Vec<u32>> =
            out.chunks(10).take(count).map(<[u32]>::to_vec).collect();
        // The record starts with the hops, then come the persons: its own order is the order by hops.
        handed_over.sort();
        assert_eq!(joined_chains(&asked), handed_over);
    }
    assert!(longest > 500, "{longest}");
}

// Large files.

#[test]
fn everybody_linked_at_four_hops() {
    let asked = Asked::new(files::everybody_linked(64).bytes(), first_to_last(64, 4));
    assert_eq!((asked.enough(), asked.chains().len()), (38_450, 230_765));
    for cells in [10, 5_005, 2_307_640, 2_307_650, 2_307_660] {
        let (answer, _, _) = asked.join(38_450, cells);
        let count = (cells as u64 / 10).min(230_765);
        assert_eq!(answer, listed(count, count == 230_765));
    }
    asked.refuses_to_join(38_449, 5_005, 18, 0);
    asked.refuses_to_join(38_440, 10, 18, 0);
}

#[test]
fn everybody_linked_at_six_hops() {
    // The first chains of the listing by hops are those of four hops.
    let file = files::everybody_linked(64).bytes();
    let first = listing_by_hops(&file, &first_to_last(64, 4)).expect("the question passes");
    let asked = Asked::new(file, first_to_last(64, 6)).with_first_by_hops(first);
    assert_eq!(asked.enough(), 2_307_650);
    let _ = asked.join(2_307_650, 10);
    let _ = asked.join(2_307_700, 60_007);
    asked.refuses_to_join(2_307_649, 60_007, 18, 0);
}

#[test]
fn more_half_chains_than_fit() {
    // 13,619,045 half chains at 8 hops: the room is exceeded long before they are counted.
    let file = files::everybody_linked(64).bytes();
    let question = first_to_last(64, 8);
    for working in [0, 10, 630, 38_450] {
        let (mut cells, mut out) = (untouched(working), untouched(45));
        let told = outside::join(&file, &question, &mut cells, &mut out);
        let right = as_they_came(18, 0, working, 45);
        assert_eq!((told, cells, out), right);
    }
}

#[test]
fn questions_over_a_largest_file() {
    let mut random = Random::of_test("questions_over_a_largest_file");
    let file = files::largest().bytes();
    for _ in 0..10 {
        let mut question = random_question(&mut random, 1024);
        question.hops = random.between(1, 8) as u32;
        let asked = Asked::new(file.clone(), question);
        let all = 10 * asked.chains().len();
        let _ = asked.join(asked.enough(), all + 15);
        let _ = asked.join(asked.enough() + 7, 10);
        asked.refuses_to_join(asked.enough() - 1, all + 15, 18, 0);
    }
}
