//! Lent slices at the start and at the end of pages, beside which nothing may even be read: a step outside what was lent
//! ends the run. File and bookmark lie in pages that may only be read.
//!
//! Covers: thousands of random cases, sound and damaged, asked of all seven operations; whole listings by every route over
//! small graphs; rooms 1 to 50; the largest file; slices of no elements.

use independent::asked::Asked;
use independent::case::{ask_in, random_case};
use independent::damage::damaged;
use independent::files;
use independent::lent::Memory;
use independent::lister::Question;
use independent::outside::{AT_THE_EDGES, USUAL};
use independent::questions::{first_to_last, random_question, Q};
use independent::random::{rounds, Random};

#[test]
fn thousands_of_cases_at_both_edges() {
    let mut random = Random::of_test("thousands_of_cases_at_both_edges");
    for _ in 0..rounds(10_000, 200_000) {
        let input = random_case(&mut random);
        ask_in(&input, Memory::PageStart);
        ask_in(&input, Memory::PageEnd);
    }
}

#[test]
fn everything_about_small_files_at_both_edges() {
    let mut random = Random::of_test("everything_about_small_files_at_both_edges");
    for _ in 0..rounds(500, 10_000) {
        let shape = files::random_file(&mut random, 5);
        let n = shape.persons();
        if n > 1 {
            let question = random_question(&mut random, n);
            for library in AT_THE_EDGES {
                let asked = Asked::new(shape.bytes(), question).of(library);
                asked.everything(n as u32);
                let rings = asked.back_to_from();
                rings.everything_of_rings();
                rings.no_chain_comes_back();
                if question.undated == 1 {
                    asked.to_the_end_with_every_room(asked.fresh_stored());
                }
            }
        }
    }
}

#[test]
fn rooms_from_1_to_50() {
    // 1 + 6 + 30 + 120 chains: no room up to 50 takes them all at once.
    let file = files::everybody_linked(8).bytes();
    for library in [USUAL, AT_THE_EDGES[0], AT_THE_EDGES[1]] {
        let asked = Asked::new(file.clone(), first_to_last(8, 4)).of(library);
        assert_eq!(asked.chains().len(), 157);
        for room in 1..=50 {
            let rooms = vec![room; 157];
            asked.by_rooms(&rooms);
            let _ = asked.moved_to_the_end(asked.fresh(), &rooms);
            let _ = asked.moved_to_the_end(asked.fresh_stored(), &rooms);
            let _ = asked.join(asked.enough(), 10 * room);
        }
        // 7 + 42 + 210 rings.
        let rings = Asked::new(
            file.clone(),
            Question {
                to: 0,
                ..first_to_last(8, 4)
            },
        )
        .of(library);
        assert_eq!(rings.rings().len(), 259);
        for room in 1..=50 {
            rings.rings_by_rooms(&vec![room; 259]);
        }
    }
}

#[test]
fn a_largest_file_at_both_edges() {
    let mut random = Random::of_test("a_largest_file_at_both_edges");
    for _ in 0..rounds(4, 40) {
        let shape = files::largest();
        let question = Question {
            hops: random.between(1, 5) as u32,
            ..random_question(&mut random, 1024)
        };
        for library in AT_THE_EDGES {
            let asked = Asked::new(shape.bytes(), question).of(library);
            asked.once_by_each_route(8);
            asked.back_to_from().rings_once();
            let changed = damaged(&mut random, &shape);
            let _ = Asked::new(changed, question).of(library).check();
        }
    }
}

#[test]
fn slices_of_no_elements_at_both_edges() {
    let sound = files::six_persons().bytes();
    for library in AT_THE_EDGES {
        for file in [vec![], sound.clone()] {
            let asked = Asked::new(file, Q).of(library);
            let _ = asked.check();
            asked.row(0);
            let _ = asked.fewest(0);
            for started in [0, 1] {
                let _ = asked.portion(started, &[], 0);
                let _ = asked.portion(started, &[], 30);
                asked.rings_as_asked_and_closed(started, &[], 0);
                asked.rings_as_asked_and_closed(started, &[], 30);
                asked.moved_in_each_form(started, &[1; 10], 0);
            }
            let _ = asked.join(0, 0);
            let _ = asked.join(0, 30);
        }
    }
}
